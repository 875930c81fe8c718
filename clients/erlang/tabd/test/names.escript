#!/usr/bin/env escript
%% -*- erlang -*-
%%! -kernel logger_level none
%% SPDX-License-Identifier: Apache-2.0
%% The table of docs/MNESIA.md, "Calls": what each name that Mnesia exports is in the client. names.escript EBIN, EBIN being the folder of the
%% client's compiled modules.
%%
%% The names are those of the installed Mnesia. A line on standard error reports each name that the rows below do not have, and each that the
%% client has or lacks contrary to its row. The status is 1 then.
-mode(compile).

main([Ebin]) ->
    true = code:add_patha(Ebin),
    Exports = [Export || {Name, _} = Export <- mnesia:module_info(exports), Name =/= module_info],
    Client = tabd:module_info(exports),
    Faults = [{Call, "is in no row, or in two"} || Call <- Exports, length([row || {_, Calls, _} <- rows(), lists:member(Call, Calls)]) =/= 1]
        ++ [{Call, "is no name of Mnesia's"} || {_, Calls, _} <- rows(), Call <- Calls, not lists:member(Call, Exports)]
        ++ [{Call, "is otherwise in the client"} || {Is, Calls, _} <- rows(), Call <- Calls, lists:member(Call, Client) =:= (Is =:= none)],
    io:format("| Mnesia | The client | How it differs, or what to write instead |~n|---|---|---|~n"),
    [io:format("| ~s | ~s | ~s |~n", [spelled(lists:sort(Calls)), word(Is), How]) || {Is, Calls, How} <- rows()],
    [io:format(standard_error, "~p ~s~n", [Call, Fault]) || {Call, Fault} <- Faults],
    halt(min(length(Faults), 1)).

word(same) -> "same";
word(differs) -> "differs";
word(none) -> "not there".

%% Each name with its arities.
spelled([{Name, Arity} | Calls]) ->
    {Same, Others} = lists:splitwith(fun({Other, _}) -> Other =:= Name end, Calls),
    Arities = lists:join($,, [integer_to_list(It) || It <- [Arity | [It || {_, It} <- Same]]]),
    [io_lib:format("`~s/~s`", [Name, Arities]), case Others of [] -> []; _ -> [", ", spelled(Others)] end].

rows() -> same() ++ differs() ++ absent().

same() ->
    [
        {same, names([{transaction, [1, 2, 3]}, {is_transaction, 0}, {abort, 1}]), "the fun is run again if it lost a lock; nested ones are levels, 16 at most"},
        {same, names([{read, [1, 2, 3]}, {wread, 1}, {write, [1, 3]}, {delete, [1, 3]}, {delete_object, [1, 3]}, {index_read, 3}, {all_keys, 1}]), "`sticky_write` is `write`"},
        {same, names([{match_object, [1, 3]}]), "\"Patterns\" says how the server matches a pattern"},
        {same, names([{read_lock_table, 1}, {write_lock_table, 1}]), ""},
        {same, names([{add_table_index, 2}, {del_table_index, 2}, {wait_for_tables, 2}, {error_description, 1}, {stop, 0}]), ""},
        {same, names([{table, [1, 2]}]), "a key, or a value that has an index, is looked up; for other queries all records come over the connection"}
    ].

differs() ->
    [
        {differs, names([{start, [0, 1]}]), "`tabd:start(Port)`, or with the client's options; `start/0` takes them from the application's environment"},
        {differs, names([{sync_transaction, [1, 2, 3]}]), "is `transaction`, since there is one copy"},
        {differs, names([{activity, [2, 3, 4]}]), "kinds as below; of access modules only `mnesia` and `mnesia_frag`, which are the same"},
        {differs, names([{async_dirty, [1, 2]}, {sync_dirty, [1, 2]}, {ets, [1, 2]}]),
            "each operation is a transaction of its own, which waits for locks; in a transaction it is, as in Mnesia, an operation of it"},
        {differs, names([{s_write, 1}, {s_delete, 1}, {s_delete_object, 1}]), "the lock is an ordinary one, and ends with the transaction"},
        {differs, names([{lock, 2}]), "returns `ok`; Mnesia may return a list of nodes. It accepts tables and records"},
        {differs, names([{index_match_object, [2, 4]}]), "a write lock is taken too, which Mnesia refuses"},
        {differs, names([{select, [1, 2, 3, 4]}, {foldl, [3, 4]}, {foldr, [3, 4]}]), "the table is locked, and all its records come over the connection"},
        {differs, names([{first, 1}, {next, 2}, {last, 1}, {prev, 2}]),
            "in the order of terms, and a key that is not there is no error; all keys come at each step, so a walk of n keys sends n * n: use `all_keys/1` or `foldl/3`"},
        {differs, names([{dirty_read, [1, 2]}, {dirty_write, [1, 2]}, {dirty_delete, [1, 2]}, {dirty_delete_object, [1, 2]}, {dirty_index_read, 3},
                         {dirty_match_object, [1, 2]}, {dirty_all_keys, 1}, {dirty_index_match_object, [2, 3]}, {dirty_select, 2}, {dirty_first, 1},
                         {dirty_next, 2}, {dirty_last, 1}, {dirty_prev, 2}]),
            "a one-shot, which is a transaction in one request. It waits for locks. In a transaction it exits with `in_transaction`; Mnesia's ignores the transaction. Else as the call without `dirty_`"},
        {differs, names([{dirty_update_counter, [2, 3]}]), "a transaction that reads and writes"},
        {differs, names([{create_table, [1, 2]}]), "options under \"Tables\""},
        {differs, names([{delete_table, 1}]), "`{locked, Tab}` while a transaction has a lock in the table; Mnesia waits"},
        {differs, names([{clear_table, 1}]), "deletes the table and creates it again, in two steps: in between it does not exist, its subscriptions end, and it is refused as `delete_table` is"},
        {differs, names([{table_info, 2}]),
            "`type`, `attributes`, `index`, `size`, `arity`, `wild_pattern`, `all`, and Mnesia's values for a table with one copy in this node's memory; no `memory`, `cookie`, `version`"},
        {differs, names([{system_info, 1}]),
            "`is_running`; `tables` that this client made or waited for, since the server has no list of all; `db_nodes` and the like are this node; no counters"},
        {differs, names([{subscribe, 1}, {unsubscribe, 1}]), "only tables, as under \"Events\"; `subscribe(What, dump)` is new"}
    ].

absent() ->
    [
        {none, names([{create_schema, [1, 2]}, {delete_schema, 1}, {dump_log, 0}, {sync_log, 0}, {dump_tables, 1}, {set_master_nodes, [1, 2]},
                      {force_load_table, 1}, {change_table_load_order, 2}, {change_table_majority, 2}, {change_table_frag, 2}]),
            "leave it out: nothing is on a disk, and the tables are in one server"},
        {none, names([{add_table_copy, 3}, {del_table_copy, 2}, {move_table_copy, 3}, {change_table_copy_type, 3}, {change_config, 2}, {add_backend_type, 2}]),
            "leave it out: each node is a client of the server that has the tables"},
        {none, names([{change_table_access_mode, 2}]), "the socket file's permissions decide which programs may connect"},
        {none, names([{activate_checkpoint, 1}, {deactivate_checkpoint, 1}, {backup, [1, 2]}, {backup_checkpoint, [2, 3]}, {restore, 2}, {traverse_backup, [4, 6]},
                      {install_fallback, [1, 2]}, {uninstall_fallback, [0, 1]}, {dump_to_textfile, 1}, {load_textfile, 1}]),
            "read the tables in one transaction that locks them, and write a file; write the records in transactions of up to 1,000 operations"},
        {none, names([{transform_table, [3, 4]}]), "read all records, delete the table, create it with other attributes, and write the records"},
        {none, names([{read_table_property, 2}, {write_table_property, 2}, {delete_table_property, 2}]), "a record in a table of the program's own"},
        {none, names([{dirty_slot, 2}]), "`dirty_all_keys/1`"},
        {none, names([{lock_table, 2}]), "`lock({table, Tab}, Kind)`"},
        {none, names([{info, 0}, {schema, [0, 1]}, {system_info, 0}]), "`table_info/2`, and the counters of a server with `--metrics`"},
        {none, names([{kill, 0}, {lkill, 0}]), "`stop/0`"},
        {none, names([{report_event, 1}, {set_debug_level, 1}]), "`logger`"},
        {none, names([{snmp_open_table, 2}, {snmp_close_table, 1}, {snmp_get_row, 2}, {snmp_get_next_index, 2}, {snmp_get_mnesia_key, 2}]), "an agent of the program's own over `read/2`"},
        {none, names([{get_activity_id, 0}, {put_activity_id, 1}]), "`is_transaction/0`; a transaction belongs to its process"},
        {none, names([{all_keys, 4}, {clear_table, 4}, {delete, 5}, {delete_object, 5}, {first, 3}, {foldl, 6}, {foldr, 6}, {index_match_object, 6}, {index_read, 6},
                      {last, 3}, {lock, 4}, {match_object, 5}, {next, 4}, {prev, 4}, {read, 5}, {select, [5, 6]}, {table_info, 4}, {write, 5}]),
            "an access module's form, with the activity's names: the name with fewer arguments"},
        {none, names([{dirty_rpc, 4}, {dirty_sel_init, 5}, {fun_select, [7, 10]}, {has_var, 1}, {ms, 0}, {raw_table_info, 2},
                      {remote_dirty_match_object, 2}, {remote_dirty_select, 2}, {select_cont, 3}]), "Mnesia's own use: nothing"}
    ].

names(Names) -> [{Name, Arity} || {Name, Arities} <- Names, Arity <- if is_list(Arities) -> Arities; true -> [Arities] end].
