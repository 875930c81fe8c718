%% SPDX-License-Identifier: Apache-2.0

%% @doc A client of `tabd serve' with the calls of Mnesia: a program that calls `mnesia' calls `tabd'.
%%
%% ```
%% ok = tabd:start(4000),
%% {atomic, ok} = tabd:create_table(person, [{attributes, [name, age]}]),
%% {atomic, ok} = tabd:transaction(fun() -> tabd:write({person, alice, 30}) end).
%% '''
%%
%% A call does what the Mnesia Reference Manual says of its namesake, and docs/MNESIA.md has what differs. What matters most:
%%
%% <ul>
%% <li>A process in a transaction has one of the pool's connections until it ends; if all are in use other processes wait. A process that
%% watches tables has one of its own, until it ends. The server serves as many in all as its `--connections' says; with `--forever' as many
%% at once.</li>
%% <li>A fun is run again if it lost a lock, as in Mnesia, and whatever it returned or caught then is ignored.</li>
%% <li>An operation that is refused `no_exists' or `bad_type' has ended its transaction, or the inner one that it belongs to: a fun that
%% catches the exit can't go on. Its next operation exits with the same reason, and if it returns it is aborted with that reason.</li>
%% <li>There is no dirty access: a dirty call is a transaction of one operation, in one request. In a transaction it exits with
%% `in_transaction'.</li>
%% <li>Floats, pids, references, ports, funs and integers over 128 bits can't be kept: `{aborted, {badterm, Operation}}'.</li>
%% </ul>
-module(tabd).

%% A client
-export([start/0, start/1, start/2, start_link/1, start_link/2, child_spec/1, child_spec/2, stop/0, stop/1, with/2]).
%% Transactions
-export([transaction/1, transaction/2, transaction/3, sync_transaction/1, sync_transaction/2, sync_transaction/3]).
-export([activity/2, activity/3, activity/4, async_dirty/1, async_dirty/2, sync_dirty/1, sync_dirty/2, ets/1, ets/2]).
-export([is_transaction/0, abort/1]).
%% Operations of a transaction
-export([read/1, read/2, read/3, wread/1, write/1, write/3, s_write/1]).
-export([delete/1, delete/3, s_delete/1, delete_object/1, delete_object/3, s_delete_object/1]).
-export([index_read/3, match_object/1, match_object/3, index_match_object/2, index_match_object/4]).
-export([all_keys/1, first/1, next/2, last/1, prev/2, select/1, select/2, select/3, select/4, table/1, table/2]).
-export([foldl/3, foldl/4, foldr/3, foldr/4, lock/2, read_lock_table/1, write_lock_table/1]).
%% Transactions of one operation
-export([dirty_read/1, dirty_read/2, dirty_write/1, dirty_write/2, dirty_delete/1, dirty_delete/2]).
-export([dirty_delete_object/1, dirty_delete_object/2, dirty_index_read/3, dirty_match_object/1, dirty_match_object/2]).
-export([dirty_index_match_object/2, dirty_index_match_object/3, dirty_select/2]).
-export([dirty_all_keys/1, dirty_first/1, dirty_next/2, dirty_last/1, dirty_prev/2]).
-export([dirty_update_counter/2, dirty_update_counter/3, one_shot/1, one_shot/2]).
%% Tables and events
-export([create_table/1, create_table/2, delete_table/1, clear_table/1, add_table_index/2, del_table_index/2]).
-export([table_info/2, system_info/1, error_description/1, wait_for_tables/2, subscribe/1, subscribe/2, unsubscribe/1]).
%% Of a program that leaves Mnesia
-export([check/1]).

-export_type([options/0, option/0, result/1]).

-type option() ::
    {port, inet:port_number()}
    | {host, inet:hostname() | inet:ip_address() | binary()}
    | {socket, file:name_all()}
    | {connections, pos_integer()}
    | {timeout, timeout()}
    | {lock_timeout, timeout()}.
-type options() :: inet:port_number() | [option()] | #{atom() => term()}.
-type result(Value) :: {atomic, Value} | {aborted, term()}.
-type records() :: [tuple()].
-type attribute() :: atom() | pos_integer().
-type retries() :: non_neg_integer() | infinity.
-type kind() :: transaction | sync_transaction | {transaction | sync_transaction, retries()} | async_dirty | sync_dirty | ets.
-type lock() :: read | write | sticky_write.
-type event_of() :: {table, atom()} | {table, atom(), simple | detailed}.

%% Restarts of a one-shot, at most. The back-off before each is a tenth of a second at most.
-define(PATIENCE, 1000).

%%% A client

%% @doc Starts the client with the application's environment, or at port 4000.
-spec start() -> ok | {error, term()}.
start() -> start(lists:keydelete(included_applications, 1, application:get_all_env(tabd))).

%% @doc `start(tabd, Options)': the client of the calls outside of `with/2'.
-spec start(options()) -> ok | {error, term()}.
start(Options) -> start(tabd, Options).

%% @doc Starts a client under a name. The options are `port' (else 4000) and `host' (else this machine) of the server, or `socket', its
%% socket file; `connections', how many the pool opens at most (else 8); `timeout', how many milliseconds a call waits at most for a
%% connection to be opened (never more than 10,000), for one of the pool to be free, and for each reply; `lock_timeout', how many an
%% operation waits for its lock, if the server runs with `--abort-waits'.
%%
%% Returns `{error, {bad_option, Option}}' for an option that is not valid; `{error, {already_started, Pid}}' if a client of that name runs with
%% other options, and `ok' if with the same; `{error, {no_connection, Reason}}' if there is no server, or it serves no more connections.
%% The Reason of a full server is `not_served', and that of a server that does not reply is `timeout'.
-spec start(atom(), options()) -> ok | {error, term()}.
start(Name, Options) when is_atom(Name) ->
    case tabd_options:checked(Options) of
        {ok, Settings} -> started(tabd_pool:start(start, Name, Settings), Name, Settings);
        Error -> Error
    end.

started({ok, _}, Name, _) ->
    case with(Name, fun() -> tabd_transaction:connected(fun(_) -> ok end) end) of
        ok -> ok;
        Reason -> stop(Name), {error, Reason}
    end;
started({error, {already_started, Pid}} = Error, _, Settings) ->
    case proc_lib:translate_initial_call(Pid) =:= {tabd_pool, init, 1} andalso tabd_pool:settings(Pid) of
        {ok, Settings} -> ok;
        _ -> Error
    end;
started(Error, _, _) ->
    Error.

%% @doc As `start/1', for a supervisor. Connections are opened when they are needed.
-spec start_link(options()) -> {ok, pid()} | {error, term()}.
start_link(Options) -> start_link(tabd, Options).

-spec start_link(atom(), options()) -> {ok, pid()} | {error, term()}.
start_link(Name, Options) when is_atom(Name) ->
    case tabd_options:checked(Options) of
        {ok, Settings} -> tabd_pool:start(start_link, Name, Settings);
        Error -> Error
    end.

-spec child_spec(options()) -> supervisor:child_spec().
child_spec(Options) -> child_spec(tabd, Options).

-spec child_spec(atom(), options()) -> supervisor:child_spec().
child_spec(Name, Options) -> #{id => Name, start => {tabd, start_link, [Name, Options]}}.

%% @doc Ends the client and its connections, and so what is open on them.
-spec stop() -> stopped.
stop() -> stop(tabd).

-spec stop(atom()) -> stopped.
stop(Name) ->
    try gen_server:stop(Name) of
        ok -> stopped
    catch
        exit:_ -> stopped
    end.

%% @doc Runs the fun, whose calls are of the client of that name. A process that it starts is not in it. A transaction of one client in one of
%% another is a transaction of its own, that commits by itself.
-spec with(atom(), fun(() -> Value)) -> Value.
with(Name, Fun) when is_atom(Name), is_function(Fun, 0) -> tabd_transaction:as(Name, Fun).

%%% Transactions

-spec transaction(fun(() -> Value)) -> result(Value).
transaction(Fun) -> transaction(Fun, [], infinity).

-spec transaction(fun(), [term()] | retries()) -> result(term()).
transaction(Fun, Args) when is_list(Args) -> transaction(Fun, Args, infinity);
transaction(Fun, Retries) -> transaction(Fun, [], Retries).

%% @doc Runs the fun in a transaction, or in one that is open in a transaction in it. As in Mnesia it is run `Retries' times at most, and
%% once at least.
-spec transaction(fun(), [term()], retries()) -> result(term()).
transaction(Fun, Args, Retries) -> tabd_transaction:transaction(Fun, Args, Retries).

-spec sync_transaction(fun(() -> Value)) -> result(Value).
sync_transaction(Fun) -> transaction(Fun).

-spec sync_transaction(fun(), [term()] | retries()) -> result(term()).
sync_transaction(Fun, Args) -> transaction(Fun, Args).

-spec sync_transaction(fun(), [term()], retries()) -> result(term()).
sync_transaction(Fun, Args, Retries) -> transaction(Fun, Args, Retries).

-spec activity(kind(), fun()) -> term().
activity(Kind, Fun) -> activity(Kind, Fun, []).

-spec activity(kind(), fun(), [term()] | module()) -> term().
activity(Kind, Fun, Args) when is_list(Args) -> activity(Kind, Fun, Args, mnesia);
activity(Kind, Fun, Module) -> activity(Kind, Fun, [], Module).

%% @doc As `transaction', but gives the fun's value, and exits with `{aborted, Reason}'. In a dirty activity each operation is a transaction of its
%% own; in a transaction it is, as in Mnesia, an inner one. Of access modules `mnesia', `mnesia_frag' and `tabd' are taken, which are all the same.
-spec activity(kind(), fun(), [term()], module()) -> term().
activity(_, _, _, Module) when Module =/= mnesia, Module =/= mnesia_frag, Module =/= tabd ->
    {aborted, {bad_type, Module}};
activity({Kind, Retries}, Fun, Args, _) when Kind =:= transaction; Kind =:= sync_transaction ->
    value(transaction(Fun, Args, Retries));
activity(Kind, Fun, Args, _) when Kind =:= transaction; Kind =:= sync_transaction ->
    value(transaction(Fun, Args));
activity(Kind, Fun, Args, _) when Kind =:= async_dirty; Kind =:= sync_dirty; Kind =:= ets ->
    tabd_transaction:non_transaction(Fun, Args);
activity(Kind, _, _, _) ->
    {aborted, {bad_type, Kind}}.

value({atomic, Value}) -> Value;
value({aborted, Reason}) -> exit({aborted, Reason}).

-spec async_dirty(fun()) -> term().
async_dirty(Fun) -> activity(async_dirty, Fun).

-spec async_dirty(fun(), [term()]) -> term().
async_dirty(Fun, Args) -> activity(async_dirty, Fun, Args).

-spec sync_dirty(fun()) -> term().
sync_dirty(Fun) -> activity(sync_dirty, Fun).

-spec sync_dirty(fun(), [term()]) -> term().
sync_dirty(Fun, Args) -> activity(sync_dirty, Fun, Args).

-spec ets(fun()) -> term().
ets(Fun) -> activity(ets, Fun).

-spec ets(fun(), [term()]) -> term().
ets(Fun, Args) -> activity(ets, Fun, Args).

-spec is_transaction() -> boolean().
is_transaction() -> tabd_transaction:is_transaction().

-spec abort(term()) -> no_return().
abort(Reason) -> tabd_transaction:abort(Reason).

%%% Operations of a transaction

operate(Request) -> tabd_transaction:operate(Request).

-spec read({atom(), term()}) -> records().
read({Tab, Key}) -> read(Tab, Key).

-spec read(atom(), term()) -> records().
read(Tab, Key) -> operate({read, Tab, Key}).

-spec read(atom(), term(), lock()) -> records().
read(Tab, Key, read) -> read(Tab, Key);
read(Tab, Key, Lock) -> is_write(Tab, Lock), wread({Tab, Key}).

-spec wread({atom(), term()}) -> records().
wread({_, _} = Oid) -> operate({wread, Oid}).

-spec write(tuple()) -> ok.
write(Record) -> is_record(Record), operate({write, Record}).

-spec write(atom(), tuple(), write | sticky_write) -> ok.
write(Tab, Record, Lock) -> is_of(Tab, Record), is_write(Tab, Lock), write(Record).

-spec s_write(tuple()) -> ok.
s_write(Record) -> write(Record).

-spec delete({atom(), term()}) -> ok.
delete({_, _} = Oid) -> operate({delete, Oid}).

-spec delete(atom(), term(), write | sticky_write) -> ok.
delete(Tab, Key, Lock) -> is_write(Tab, Lock), delete({Tab, Key}).

-spec s_delete({atom(), term()}) -> ok.
s_delete(Oid) -> delete(Oid).

-spec delete_object(tuple()) -> ok.
delete_object(Record) -> is_record(Record), operate({delete_object, Record}).

-spec delete_object(atom(), tuple(), write | sticky_write) -> ok.
delete_object(Tab, Record, Lock) -> is_of(Tab, Record), is_write(Tab, Lock), delete_object(Record).

-spec s_delete_object(tuple()) -> ok.
s_delete_object(Record) -> delete_object(Record).

-spec index_read(atom(), term(), attribute()) -> records().
index_read(Tab, Value, Attr) -> operate({index_read, Tab, Value, Attr}).

%% @doc The records that fit, with match variables and maps as in Mnesia.
-spec match_object(tuple()) -> records().
match_object(Pattern) ->
    is_record(Pattern),
    tabd_query:match(fun operate/1, Pattern).

-spec match_object(atom(), tuple(), lock()) -> records().
match_object(Tab, Pattern, Lock) ->
    is_of(Tab, Pattern),
    lock_if_write(Tab, Lock),
    match_object(Pattern).

%% @doc The records that match: of the pattern's key, or by the index of an attribute whose value is bound in the pattern.
-spec index_match_object(tuple(), attribute()) -> records().
index_match_object(Pattern, Attr) ->
    is_record(Pattern),
    tabd_query:index_match(fun operate/1, element(1, Pattern), Pattern, Attr).

-spec index_match_object(atom(), tuple(), attribute(), lock()) -> records().
index_match_object(Tab, Pattern, Attr, Lock) ->
    is_of(Tab, Pattern),
    lock_if_write(Tab, Lock),
    index_match_object(Pattern, Attr).

-spec all_keys(atom()) -> [term()].
all_keys(Tab) -> operate({all_keys, Tab}).

%% @doc The first key in the order of terms, or `$end_of_table'. All keys come here, at each step of a walk.
-spec first(atom()) -> term().
first(Tab) -> tabd_query:first(fun operate/1, Tab).

%% @doc The least key above one, which need not be there.
-spec next(atom(), term()) -> term().
next(Tab, Key) -> tabd_query:next(fun operate/1, Tab, Key).

-spec last(atom()) -> term().
last(Tab) -> tabd_query:last(fun operate/1, Tab).

-spec prev(atom(), term()) -> term().
prev(Tab, Key) -> tabd_query:prev(fun operate/1, Tab, Key).

%% @doc The server knows no match specifications: all records of the table come here, and are matched here.
-spec select(atom(), ets:match_spec()) -> [term()].
select(Tab, Spec) -> tabd_query:select(fun operate/1, Tab, Spec).

-spec select(atom(), ets:match_spec(), lock()) -> [term()].
select(Tab, Spec, Lock) -> lock_if_write(Tab, Lock), select(Tab, Spec).

%% @doc So many of them, with a continuation for `select/1'; `$end_of_table' if there are none.
-spec select(atom(), ets:match_spec(), pos_integer(), lock()) -> tabd_query:chunk().
select(Tab, Spec, Count, Lock) -> tabd_query:chunk(Count, select(Tab, Spec, Lock)).

-spec select(term()) -> tabd_query:chunk().
select({tabd_select, Count, Rest}) -> tabd_query:chunk(Count, Rest);
select('$end_of_table') -> '$end_of_table'.

%% @doc A handle for QLC, whose query runs in a transaction or dirty activity.
-spec table(atom()) -> qlc:query_handle().
table(Tab) -> table(Tab, []).

%% @doc With `{lock, read | write}' and `{traverse, select | {select, MatchSpec}}'; `n_objects' changes nothing.
-spec table(atom(), [{atom(), term()}]) -> qlc:query_handle().
table(Tab, Options) -> tabd_query:table(Tab, Options).

%% @doc All records of the table come here.
-spec foldl(fun((tuple(), Acc) -> Acc), Acc, atom()) -> Acc.
foldl(Fun, Acc, Tab) -> foldl(Fun, Acc, Tab, read).

-spec foldl(fun((tuple(), Acc) -> Acc), Acc, atom(), lock()) -> Acc.
foldl(Fun, Acc, Tab, Lock) -> lists:foldl(Fun, Acc, records(Tab, Lock)).

-spec foldr(fun((tuple(), Acc) -> Acc), Acc, atom()) -> Acc.
foldr(Fun, Acc, Tab) -> foldr(Fun, Acc, Tab, read).

-spec foldr(fun((tuple(), Acc) -> Acc), Acc, atom(), lock()) -> Acc.
foldr(Fun, Acc, Tab, Lock) -> lists:foldr(Fun, Acc, records(Tab, Lock)).

records(Tab, Lock) ->
    lock_if_write(Tab, Lock),
    tabd_query:records(fun operate/1, Tab).

-spec lock({table, atom()} | {record, atom(), term()}, lock()) -> ok.
lock({table, Tab}, read) -> read_lock_table(Tab);
lock({table, Tab}, Lock) -> is_write(Tab, Lock), write_lock_table(Tab);
lock({record, Tab, Key}, Lock) -> _ = read(Tab, Key, Lock), ok;
lock(Item, _) -> abort({bad_type, Item}).

-spec read_lock_table(atom()) -> ok.
read_lock_table(Tab) -> operate({read_lock_table, Tab}).

-spec write_lock_table(atom()) -> ok.
write_lock_table(Tab) -> operate({write_lock_table, Tab}).

lock_if_write(_, read) -> ok;
lock_if_write(Tab, Lock) -> is_write(Tab, Lock), write_lock_table(Tab).

is_record(Record) when is_tuple(Record), tuple_size(Record) > 1, is_atom(element(1, Record)) -> ok;
is_record(Record) -> abort({bad_type, Record}).

is_of(Tab, Record) when element(1, Record) =:= Tab -> ok;
is_of(_, Record) -> abort({bad_type, Record}).

is_write(_, Lock) when Lock =:= write; Lock =:= sticky_write -> ok;
is_write(Tab, Lock) -> abort({bad_type, Tab, Lock}).

%%% Transactions of one operation

dirty(Operation) -> tabd_transaction:dirty(Operation).

-spec dirty_read({atom(), term()}) -> records().
dirty_read({Tab, Key}) -> dirty_read(Tab, Key).

-spec dirty_read(atom(), term()) -> records().
dirty_read(Tab, Key) -> dirty({read, Tab, Key}).

-spec dirty_write(tuple()) -> ok.
dirty_write(Record) -> is_record(Record), dirty({write, Record}).

-spec dirty_write(atom(), tuple()) -> ok.
dirty_write(Tab, Record) -> is_of(Tab, Record), dirty_write(Record).

-spec dirty_delete({atom(), term()}) -> ok.
dirty_delete({_, _} = Oid) -> dirty({delete, Oid}).

-spec dirty_delete(atom(), term()) -> ok.
dirty_delete(Tab, Key) -> dirty_delete({Tab, Key}).

-spec dirty_delete_object(tuple()) -> ok.
dirty_delete_object(Record) -> is_record(Record), dirty({delete_object, Record}).

-spec dirty_delete_object(atom(), tuple()) -> ok.
dirty_delete_object(Tab, Record) -> is_of(Tab, Record), dirty_delete_object(Record).

-spec dirty_index_read(atom(), term(), attribute()) -> records().
dirty_index_read(Tab, Value, Attr) -> dirty({index_read, Tab, Value, Attr}).

-spec dirty_match_object(tuple()) -> records().
dirty_match_object(Pattern) ->
    is_record(Pattern),
    tabd_query:match(fun dirty/1, Pattern).

-spec dirty_match_object(atom(), tuple()) -> records().
dirty_match_object(Tab, Pattern) -> is_of(Tab, Pattern), dirty_match_object(Pattern).

-spec dirty_index_match_object(tuple(), attribute()) -> records().
dirty_index_match_object(Pattern, Attr) ->
    is_record(Pattern),
    tabd_query:index_match(fun dirty/1, element(1, Pattern), Pattern, Attr).

-spec dirty_index_match_object(atom(), tuple(), attribute()) -> records().
dirty_index_match_object(Tab, Pattern, Attr) -> is_of(Tab, Pattern), dirty_index_match_object(Pattern, Attr).

-spec dirty_select(atom(), ets:match_spec()) -> [term()].
dirty_select(Tab, Spec) -> tabd_query:select(fun dirty/1, Tab, Spec).

-spec dirty_all_keys(atom()) -> [term()].
dirty_all_keys(Tab) -> dirty({all_keys, Tab}).

-spec dirty_first(atom()) -> term().
dirty_first(Tab) -> tabd_query:first(fun dirty/1, Tab).

-spec dirty_next(atom(), term()) -> term().
dirty_next(Tab, Key) -> tabd_query:next(fun dirty/1, Tab, Key).

-spec dirty_last(atom()) -> term().
dirty_last(Tab) -> tabd_query:last(fun dirty/1, Tab).

-spec dirty_prev(atom(), term()) -> term().
dirty_prev(Tab, Key) -> tabd_query:prev(fun dirty/1, Tab, Key).

-spec dirty_update_counter({atom(), term()}, integer()) -> non_neg_integer().
dirty_update_counter({Tab, Key}, Increment) -> dirty_update_counter(Tab, Key, Increment).

%% @doc Adds to the counter of the key and returns its new value. A missing counter is 0, and none is less. A transaction that reads and writes.
-spec dirty_update_counter(atom(), term(), integer()) -> non_neg_integer().
dirty_update_counter(Tab, Key, Increment) ->
    is_transaction() andalso abort(in_transaction),
    Update = fun() ->
        Value = max(0, Increment + lists:sum([element(3, Record) || Record <- wread({Tab, Key})])),
        write({Tab, Key, Value}),
        Value
    end,
    value(transaction(Update)).

%% @doc `one_shot(Operations, 1000)'.
-spec one_shot([term()]) -> result([term()]).
one_shot(Operations) -> one_shot(Operations, ?PATIENCE).

%% @doc A transaction in one request: operations and inner `{transaction, Operations}' as docs/PROTOCOL.md has them, their answers in
%% order, and how often it may restart, 1,000 times at most.
-spec one_shot([term()], 0..1000) -> result([term()]).
one_shot(Operations, Retries) -> tabd_transaction:one_shot(Operations, Retries).

%%% Tables and events

%% @doc With the table's name among the options, as `{name, Tab}'.
-spec create_table([term()]) -> result(ok).
create_table(Options) ->
    case lists:keytake(name, 1, Options) of
        {value, {name, Tab}, Others} -> create_table(Tab, Others);
        false -> {aborted, {badarg, Options}}
    end.

-spec create_table(atom(), [term()]) -> result(ok).
create_table(Tab, Options) ->
    case schema({create_table, Tab, Options}) of
        {aborted, {already_exists, Tab}} = Result -> know(Tab), Result;
        {atomic, ok} -> know(Tab), {atomic, ok};
        Result -> Result
    end.

know(Tab) -> tabd_pool:know(tabd_transaction:client(), Tab).

-spec delete_table(atom()) -> result(ok).
delete_table(Tab) -> schema({delete_table, Tab}).

%% @doc Deletes the table and makes it again with the same type, attributes and indexes. This is no single step: in between there is no such
%% table, and the subscriptions to it end. In a transaction it is aborted.
-spec clear_table(atom()) -> result(ok).
clear_table(Tab) ->
    is_transaction() andalso abort(nested_transaction),
    try [{Item, table_info(Tab, Item)} || Item <- [type, attributes, index]] of
        Options ->
            case delete_table(Tab) of
                {atomic, ok} -> create_table(Tab, Options);
                Aborted -> Aborted
            end
    catch
        exit:{aborted, {no_exists, Tab, _}} -> {aborted, {no_exists, Tab}};
        exit:{aborted, Reason} -> {aborted, Reason}
    end.

-spec add_table_index(atom(), attribute()) -> result(ok).
add_table_index(Tab, Attr) -> schema({add_table_index, Tab, Attr}).

-spec del_table_index(atom(), attribute()) -> result(ok).
del_table_index(Tab, Attr) ->
    case schema({del_table_index, Tab, Attr}) of
        {aborted, {no_index, Tab, Attr}} -> {aborted, {no_exists, Tab, Attr}};
        Result -> Result
    end.

schema(Request) ->
    case tabd_transaction:ask(Request) of
        {reply, {atomic, ok}} -> {atomic, ok};
        {reply, {error, in_transaction}} -> {aborted, nested_transaction};
        {reply, {_, Reason}} -> {aborted, Reason};
        {closed, Reason} -> {aborted, {outcome_unknown, Reason}};
        Reason -> {aborted, Reason}
    end.

%% @doc `type', `attributes', `index' and `size' (as of the last commit) by the server; `arity' and `wild_pattern', which follow from them;
%% and what Mnesia says of any table with one copy in this node's memory, as `{ram_copies, [node()]}'. `all' are all of these.
-spec table_info(atom() | {atom(), term()}, atom()) -> term().
table_info(Tab, Item) -> tabd_info:table(Tab, Item).

%% @doc `is_running': whether the client was started and a server is there, `yes' or `no'. `tables': those that this client has made, or
%% found by `create_table' or `wait_for_tables', and that are there; the server has no list of all. `db_nodes' and the like: this node.
-spec system_info(atom()) -> term().
system_info(Item) -> tabd_info:system(Item).

%% @doc The error with a text instead of its name.
-spec error_description(term()) -> term().
error_description(Error) -> tabd_info:description(Error).

%% @doc Waits until the tables are there, so many milliseconds at most.
-spec wait_for_tables([atom()], timeout()) -> ok | {timeout, [atom()]} | {error, term()}.
wait_for_tables(Tabs, Timeout) when is_list(Tabs) ->
    case [Tab || Tab <- Tabs, not tabd_info:known(Tab)] of
        [] ->
            ok;
        Missing when is_integer(Timeout), Timeout =< 0 ->
            {timeout, Missing};
        Missing ->
            timer:sleep(20),
            wait_for_tables(Missing, less(Timeout))
    end;
wait_for_tables(Tabs, Timeout) ->
    {error, {badarg, Tabs, Timeout}}.

less(infinity) -> infinity;
less(Timeout) -> Timeout - 20.

%% @doc Sends the table's events to the caller, until it unsubscribes or ends: `{mnesia_table_event, Event}' as Mnesia's, but that its last
%% element is `{tid, Age}'. If the subscription ends otherwise the caller receives `{mnesia_table_end, Tab, deleted}' or, with the
%% connection, `{mnesia_table_end, Tab, closed}'; and `{mnesia_overflow, Commit}' if events from that commit on were lost, and all its
%% subscriptions have ended.
-spec subscribe(event_of()) -> {ok, node()} | {error, term()}.
subscribe(What) -> subscribe_as(What, []).

%% @doc With `dump' the table's records come first, as `{mnesia_table_begin, Tab, Level, Records}'.
-spec subscribe(event_of(), dump) -> {ok, node()} | {error, term()}.
subscribe(What, dump) -> subscribe_as(What, [dump]).

subscribe_as({table, Tab}, Dump) ->
    subscribe_as({table, Tab, simple}, Dump);
subscribe_as({table, Tab, Level} = What, Dump) when is_atom(Tab), (Level =:= simple orelse Level =:= detailed) ->
    case watch(tabd_pool:watch(tabd_transaction:client()), list_to_tuple([subscribe, What | Dump])) of
        {error, {already_subscribed, Tab}} -> {error, {already_exists, What}};
        Result -> Result
    end;
subscribe_as(What, _) ->
    {error, {badarg, What}}.

%% @doc Ends a subscription, at either level. Its events have all been sent then.
-spec unsubscribe(event_of()) -> {ok, node()} | {error, term()}.
unsubscribe({table, Tab}) ->
    unsubscribe({table, Tab, simple});
unsubscribe({table, Tab, Level}) when is_atom(Tab), is_atom(Level) ->
    watch(tabd_pool:watching(tabd_transaction:client()), {unsubscribe, {table, Tab, Level}});
unsubscribe(What) ->
    {error, {badarg, What}}.

watch({ok, Connection}, Request) ->
    case tabd_connection:request(Connection, Request) of
        {reply, {ok, _}} -> {ok, node()};
        {reply, {error, Reason}} -> {error, Reason};
        {closed, Reason} -> {error, {no_connection, Reason}}
    end;
watch(none, _) ->
    {ok, node()};
watch({error, Reason}, _) ->
    {error, Reason}.

%%% Of a program that leaves Mnesia

%% @doc The functions of `mnesia' that a compiled module calls and `tabd' does not have: of a module that is loaded or can be found, or of a
%% file, which is a `.beam'.
-spec check(module() | file:filename()) -> [{atom(), arity()}] | {error, term()}.
check(Module) -> tabd_mnesia:missing(Module).
