%% SPDX-License-Identifier: Apache-2.0

%% @private
%% What is said of tables, of the client, and of errors.
-module(tabd_info).

-export([table/2, system/1, known/1, description/1]).

%% What Mnesia says of a table with one copy, in this node's memory.
constants(Tab) ->
    [
        {access_mode, read_write},
        {active_replicas, [node()]},
        {all_nodes, [node()]},
        {checkpoints, []},
        {disc_copies, []},
        {disc_only_copies, []},
        {external_copies, []},
        {frag_names, [Tab]},
        {frag_properties, []},
        {load_by_force, false},
        {load_node, node()},
        {load_order, 0},
        {local_content, false},
        {majority, false},
        {master_nodes, []},
        {ram_copies, [node()]},
        {record_name, Tab},
        {snmp, []},
        {storage_properties, []},
        {storage_type, ram_copies},
        {user_properties, []},
        {where_to_commit, [{node(), ram_copies}]},
        {where_to_read, node()},
        {where_to_write, [node()]}
    ].

%% @doc An item of a table, as `tabd:table_info/2'.
-spec table(term(), term()) -> term().
table({Tab, _}, Item) ->
    table(Tab, Item);
table(Tab, arity) ->
    length(asked(Tab, attributes, arity)) + 1;
table(Tab, wild_pattern) ->
    list_to_tuple([Tab | ['_' || _ <- asked(Tab, attributes, wild_pattern)]]);
table(Tab, all) ->
    _ = asked(Tab, type, all),
    Others = [{Item, table(Tab, Item)} || Item <- [type, attributes, index, size, arity, wild_pattern]],
    lists:keydelete(frag_names, 1, lists:sort(Others ++ constants(Tab)));
table(Tab, Item) ->
    case lists:keyfind(Item, 1, constants(Tab)) of
        {Item, Value} ->
            _ = asked(Tab, type, Item),
            Value;
        false ->
            asked(Tab, Item, Item)
    end.

asked(Tab, Item, Named) ->
    case tabd_transaction:ask({table_info, Tab, Item}) of
        {reply, {error, {no_exists, Tab}}} when Item =:= size -> 0;
        {reply, {error, {no_exists, Tab}}} -> exit({aborted, {no_exists, Tab, Named}});
        {reply, {error, badcommand}} -> exit({aborted, {no_exists, Tab, Named}});
        {reply, {error, Reason}} -> exit({aborted, Reason});
        {reply, Info} -> Info;
        {closed, Reason} -> exit({aborted, {no_connection, Reason}});
        Reason -> exit({aborted, Reason})
    end.

%% @doc An item of the client, as `tabd:system_info/1'.
-spec system(term()) -> term().
system(is_running) -> is_running();
system(Item) when Item =:= tables; Item =:= local_tables -> tables();
system(db_nodes) -> [node()];
system(running_db_nodes) -> [node() || is_running() =:= yes];
system(extra_db_nodes) -> [];
system(master_node_tables) -> [];
system(use_dir) -> false;
system(fallback_activated) -> false;
system(schema_location) -> ram;
system(access_module) -> tabd;
system(version) ->
    _ = application:load(tabd),
    case application:get_key(tabd, vsn) of
        {ok, Version} -> Version;
        undefined -> exit({aborted, {badarg, version}})
    end;
system(Item) -> exit({aborted, {badarg, Item}}).

%% If other processes have all connections, one of them is open.
is_running() ->
    case tabd_pool:is_connected(tabd_transaction:client()) of
        true -> yes;
        false -> case tabd_transaction:connected(fun(_) -> yes end) of yes -> yes; _ -> no end;
        {error, _} -> no
    end.

tables() ->
    case tabd_pool:known(tabd_transaction:client()) of
        Tabs when is_list(Tabs) -> [Tab || Tab <- Tabs, known(Tab)];
        {error, Reason} -> exit({aborted, Reason})
    end.

%% @doc Whether there is such a table. The client remembers it.
-spec known(atom()) -> boolean().
known(Tab) ->
    case tabd_transaction:ask({table_info, Tab, type}) of
        {reply, Type} when is_atom(Type) ->
            tabd_pool:know(tabd_transaction:client(), Tab),
            true;
        _ ->
            false
    end.

%% @doc A text for an error, instead of its name.
-spec description(term()) -> term().
description({error, Reason}) -> description(Reason);
description({aborted, Reason}) -> description(Reason);
description(Reason) when is_tuple(Reason), tuple_size(Reason) > 0 -> setelement(1, Reason, description(element(1, Reason)));
description(Reason) -> maps:get(Reason, texts(), Reason).

texts() ->
    #{
        %% As Mnesia's.
        already_exists => "Some schema option we try to set is already on",
        bad_type => "Bad type on some provided arguments",
        badarg => "Bad or invalid argument, possibly bad type",
        nested_transaction => "Nested transactions are not allowed",
        no_exists => "Tried to perform op on non-existing (non alive) item",
        no_transaction => "Operation not allowed outside transactions",
        node_not_running => "Node not running",
        system_limit => "Some system_limit was exhausted",
        %% Only of tabd.
        already_started => "A client of this name was started with other options",
        bad_def => "The options of a table, or its attribute, are not such",
        bad_option => "An option of the client is unknown, or its value is not such",
        badterm => "The operation has a value that can't be kept",
        in_transaction => "Not allowed in a transaction",
        lock_timeout => "A lock was not granted in time",
        locked => "A transaction has a lock in the table",
        no_connection => "The server can't be reached, or the connection has ended",
        no_memory => "The server has no memory left",
        nomore => "The transaction lost its locks as often as it may",
        outcome_unknown => "The connection ended during a commit: all of it was done, or nothing"
    }.
