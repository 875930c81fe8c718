%% SPDX-License-Identifier: Apache-2.0

%% @private
%% Transactions and their operations: which connection a process has, how its innermost level is, and when a fun is run again.
%%
%% A process keeps this for each client apart, in its dictionary. A call is of the client whose name `as/2' was given, or of `tabd'.
-module(tabd_transaction).

-export([client/0, as/2, connected/1, ask/1]).
-export([transaction/3, non_transaction/2, is_transaction/0, abort/1]).
-export([operate/1, dirty/1, one_shot/2]).

-define(CLIENT, '$tabd_client').

%% What a process in a transaction keeps: its connection, and how its innermost level is. It is `open'; or the server has ended it, for a
%% reason; or all levels, by a restart or with the connection. In a dirty activity it is `dirty'.
-record(context, {connection :: pid(), level = open :: open | {ended, term()} | restarted | {lost, term()}}).

-type result() :: {atomic, term()} | {aborted, term()}.

%%% The client

%% @doc The name of the client whose calls are made.
-spec client() -> atom().
client() ->
    case get(?CLIENT) of
        undefined -> tabd;
        Name -> Name
    end.

%% @doc Runs the fun, whose calls are of the client of that name.
-spec as(atom(), fun(() -> Value)) -> Value.
as(Name, Fun) ->
    Before = put(?CLIENT, Name),
    try
        Fun()
    after
        restore(?CLIENT, Before)
    end.

restore(Key, undefined) -> erase(Key);
restore(Key, Value) -> put(Key, Value).

key() -> {'$tabd_transaction', client()}.

context() -> get(key()).

%% @doc What the fun gives for a connection of the pool, or the reason why there is none.
-spec connected(fun((pid()) -> Value)) -> Value | {no_connection, term()} | {node_not_running, node()}.
connected(Do) ->
    lent(fun(Connection, _) -> Do(Connection) end).

lent(Do) ->
    Name = client(),
    case tabd_pool:take(Name) of
        {ok, Connection, Lock} ->
            try
                Do(Connection, Lock)
            after
                tabd_pool:give(Name, Connection)
            end;
        {error, Reason} ->
            Reason
    end.

%% @doc Asks on the transaction's connection, on which the server refuses what a transaction can't do; without a transaction on a free one.
-spec ask(term()) -> tabd_connection:outcome() | {no_connection, term()} | {node_not_running, node()}.
ask(Request) ->
    case context() of
        #context{connection = Connection} -> tabd_connection:request(Connection, Request);
        _ -> connected(fun(Connection) -> tabd_connection:request(Connection, Request) end)
    end.

%%% Transactions

%% @doc Runs the fun in a transaction, or in one that is open in a transaction in it.
-spec transaction(fun(), [term()], non_neg_integer() | infinity) -> result().
transaction(Fun, Args, Retries) when
    is_function(Fun), is_list(Args), (Retries =:= infinity orelse is_integer(Retries) andalso Retries >= 0)
->
    case context() of
        #context{} -> inner(Fun, Args);
        _ -> outermost(Fun, Args, Retries)
    end;
transaction(Fun, Args, Retries) ->
    {aborted, {badarg, Fun, Args, Retries, tabd}}.

-spec is_transaction() -> boolean().
is_transaction() -> is_record(context(), context).

-spec abort(term()) -> no_return().
abort({aborted, _} = Reason) -> exit(Reason);
abort(Reason) -> exit({aborted, Reason}).

%% @doc Runs the fun with operations that are each a transaction. In a transaction it is, as in Mnesia, one in it.
-spec non_transaction(fun(), [term()]) -> term().
non_transaction(Fun, Args) when is_function(Fun), is_list(Args) ->
    case is_transaction() of
        true -> inner_value(inner(Fun, Args));
        false -> each_alone(Fun, Args)
    end;
non_transaction(Fun, Args) ->
    {aborted, {badarg, Fun, Args}}.

inner_value({atomic, Value}) -> Value;
inner_value({aborted, Reason}) -> exit(Reason).

each_alone(Fun, Args) ->
    Key = key(),
    Before = put(Key, dirty),
    try apply(Fun, Args) of
        {'EXIT', Reason} -> exit(Reason);
        {aborted, Reason} -> abort(Reason);
        Value -> Value
    catch
        error:Reason:Stack -> exit({Reason, Stack})
    after
        restore(Key, Before)
    end.

outermost(Fun, Args, Retries) ->
    Key = key(),
    Before = get(Key),
    Run = fun(Connection) ->
        case tabd_connection:request(Connection, 'begin') of
            {reply, {tid, _}} -> again(Connection, Fun, Args, Retries);
            {reply, {error, Reason}} -> {aborted, Reason};
            {closed, Reason} -> {aborted, {no_connection, Reason}}
        end
    end,
    try connected(Run) of
        {atomic, Value} -> {atomic, Value};
        {aborted, Reason} -> {aborted, Reason};
        Reason -> {aborted, Reason}
    after
        restore(Key, Before)
    end.

%% After a restart the transaction is open at the server, at its first level and empty, and is as old as before.
again(Connection, Fun, Args, Retries) ->
    put(key(), #context{connection = Connection}),
    try
        level(Fun, Args)
    catch
        exit:{aborted, restart} when Retries =:= infinity ->
            again(Connection, Fun, Args, infinity);
        exit:{aborted, restart} when Retries > 1 ->
            again(Connection, Fun, Args, Retries - 1);
        exit:{aborted, restart} ->
            _ = tabd_connection:request(Connection, {abort, nomore}),
            {aborted, nomore}
    end.

inner(Fun, Args) ->
    try operate('begin') of
        {tid, _} -> known(level(Fun, Args))
    catch
        %% The limit of levels: the transaction around it goes on.
        exit:{aborted, {system_limit, _} = Reason} -> {aborted, Reason}
    end.

%% The commit of a level that is not the first commits nothing yet.
known({aborted, {outcome_unknown, Reason}}) -> {aborted, {no_connection, Reason}};
known(Result) -> Result.

level(Fun, Args) ->
    try apply(Fun, Args) of
        Value -> commit(Value, context())
    catch
        exit:{aborted, Reason} -> undo(Reason, context());
        exit:Reason -> undo(Reason, context());
        error:Reason:Stack -> undo({Reason, Stack}, context());
        throw:Value -> undo({throw, Value}, context())
    end.

%% A level that the server has ended has nothing to commit, whatever the fun caught.
commit(Value, #context{connection = Connection, level = open} = Context) ->
    case tabd_connection:request(Connection, commit) of
        {reply, {atomic, _}} -> {atomic, Value};
        {reply, {error, Reason}} -> undo(Reason, Context);
        {closed, Reason} -> undo({outcome_unknown, Reason}, lost({no_connection, Reason}, Context))
    end;
commit(_, #context{level = restarted}) ->
    exit({aborted, restart});
commit(_, #context{level = {_, Reason}} = Context) ->
    undo(Reason, Context).

undo(_, #context{level = restarted}) ->
    exit({aborted, restart});
undo(Reason, #context{level = {ended, _}} = Context) ->
    put(key(), Context#context{level = open}),
    {aborted, Reason};
undo(Reason, #context{level = {lost, _}}) ->
    {aborted, Reason};
undo(Reason, #context{connection = Connection} = Context) ->
    case tabd_connection:request(Connection, {abort, client}) of
        {reply, _} -> ok;
        {closed, Closed} -> _ = lost({no_connection, Closed}, Context), ok
    end,
    {aborted, Reason}.

lost(Reason, Context) ->
    Lost = Context#context{level = {lost, Reason}},
    put(key(), Lost),
    Lost.

%%% Operations

%% @doc Does an operation in the caller's transaction, or as a one-shot in a dirty activity. The next one is sent after its reply: one that was
%% sent before a restart would be done in the restarted transaction, without the operations before it.
-spec operate(term()) -> term().
operate(Request) ->
    case context() of
        #context{level = open} = Context -> operate(Request, Context);
        #context{level = restarted} -> exit({aborted, restart});
        #context{level = {_, Reason}} -> exit({aborted, Reason});
        dirty -> dirty(Request);
        undefined -> exit({aborted, no_transaction})
    end.

operate(Request, #context{connection = Connection} = Context) ->
    case tabd_connection:request(Connection, Request) of
        {reply, restart} ->
            put(key(), Context#context{level = restarted}),
            exit({aborted, restart});
        {reply, {aborted, Refused}} ->
            Reason = reason(Refused),
            put(key(), Context#context{level = {ended, Reason}}),
            exit({aborted, Reason});
        {reply, {error, badterm}} ->
            exit({aborted, {badterm, Request}});
        {reply, {error, Reason}} ->
            exit({aborted, Reason});
        {reply, Reply} ->
            Reply;
        {undone, Reason} ->
            _ = lost(Reason, Context),
            exit({aborted, Reason});
        {closed, Reason} ->
            _ = lost({no_connection, Reason}, Context),
            exit({aborted, {no_connection, Reason}})
    end.

%% Refusals that Mnesia has another term for.
reason({bad_type, _, Record}) -> {bad_type, Record};
reason({no_index, Tab, Attr}) -> {no_exists, Tab, {index, [Attr]}};
reason(Reason) -> Reason.

%% @doc Does an operation as a transaction of its own.
-spec dirty(term()) -> term().
dirty(Operation) ->
    is_transaction() andalso abort(in_transaction),
    Alone = fun
        (Connection, infinity) -> tabd_connection:request(Connection, {transaction, [Operation], 1000});
        (Connection, Lock) -> in_time(Connection, Operation, erlang:monotonic_time(millisecond) + Lock)
    end,
    case told(lent(Alone)) of
        {atomic, [Reply]} -> Reply;
        {aborted, badterm} -> exit({aborted, {badterm, Operation}});
        {aborted, Reason} -> exit({aborted, reason(Reason)})
    end.

%% The back-off before each attempt is a second at most, and no abort ends it: in the last second each request makes one attempt.
in_time(Connection, Operation, Deadline) ->
    Left = max(0, Deadline - erlang:monotonic_time(millisecond)),
    case tabd_connection:request(Connection, {transaction, [Operation], min(1000, Left div 1000)}) of
        {reply, {aborted, nomore}} when Left > 100 ->
            timer:sleep(20),
            in_time(Connection, Operation, Deadline);
        {reply, {aborted, nomore}} -> {reply, {aborted, lock_timeout}};
        Outcome -> Outcome
    end.

%% @doc Does operations as a transaction, in one request.
-spec one_shot([term()], 0..1000) -> {atomic, [term()]} | {aborted, term()}.
one_shot(Operations, Retries) ->
    is_transaction() andalso abort(in_transaction),
    told(connected(fun(Connection) -> tabd_connection:request(Connection, {transaction, Operations, Retries}) end)).

told({reply, {atomic, Replies}}) -> {atomic, Replies};
told({reply, {_, Reason}}) -> {aborted, Reason};
told({closed, Reason}) -> {aborted, {outcome_unknown, Reason}};
told(Reason) -> {aborted, Reason}.
