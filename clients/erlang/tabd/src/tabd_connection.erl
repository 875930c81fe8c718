%% SPDX-License-Identifier: Apache-2.0

%% @private
%% A connection to the server: a session of its own. One request is under way at a time, since its caller waits for the reply.
%%
%% A process of its own holds it, so that the connection outlives the process that uses it: the server serves only so many.
-module(tabd_connection).
-behaviour(gen_server).

-export([start/2, request/2, orphan/1, stop/1]).
-export([init/1, handle_continue/2, handle_call/3, handle_cast/2, handle_info/2]).

-export_type([outcome/0]).

%% A request's payload, at most: the server ends a session that sends more.
-define(MOST_BYTES, 1048576).
%% The longest wait for a connection, in milliseconds. A server that accepts no more connections still lets the system open them, and says
%% nothing on them.
-define(OPENING, 10000).
%% The reason of an abort that ends the wait of an operation. No refusal has it.
-define(LATE, '$tabd_lock_timeout').

%% What waits for its reply. `first' is a reply that came while an abort was under way, whose own reply is still to come.
-record(asked, {
    from :: gen_server:from() | undo | {undo, gen_server:from()},
    request :: term(),
    limit = none :: reference() | none,
    lock = none :: reference() | none | late,
    first = none :: none | {reply, term()}
}).

-record(state, {
    pool :: pid(),
    settings :: tabd_options:settings(),
    socket :: gen_tcp:socket() | undefined,
    asked = none :: none | #asked{},
    %% Of the last transaction: its age, and since when it was restarted, in milliseconds.
    age = none :: none | pos_integer(),
    restarted = none :: none | integer(),
    %% The process that receives the events, and the level at which each table is watched.
    watcher :: pid() | undefined,
    watched = #{} :: #{atom() => simple | detailed},
    %% The caller that waits for the end marker of a table that it no longer watches.
    ending = #{} :: #{atom() => gen_server:from()}
}).

%% `closed': the connection has ended, or its reply did not come in time, and it is of no more use. `undone': the whole transaction has
%% ended at the server.
-type outcome() :: {reply, term()} | {closed, term()} | {undone, lock_timeout}.

-type step() :: {noreply, #state{}} | {stop, term(), #state{}}.

%% @doc Opens a connection. The pool is notified when the server serves it; else the process ends with `{shutdown, {closed, Reason}}'.
-spec start(pid(), tabd_options:settings()) -> {ok, pid()}.
start(Pool, Settings) ->
    gen_server:start(?MODULE, {Pool, Settings}, []).

%% @doc The reply to a request. After `closed' the process has ended and must not be used again.
-spec request(pid(), term()) -> outcome().
request(Connection, Request) ->
    Payload = term_to_binary(Request),
    case byte_size(Payload) =< ?MOST_BYTES of
        true ->
            try
                gen_server:call(Connection, {request, Request, Payload}, infinity)
            catch
                exit:{{shutdown, {closed, Reason}}, _} -> {closed, Reason};
                exit:_ -> {closed, closed}
            end;
        false ->
            {reply, {error, badterm}}
    end.

%% @doc The process that used it has ended: it is given back once its open transaction is undone.
-spec orphan(pid()) -> ok.
orphan(Connection) ->
    gen_server:cast(Connection, orphan).

%% @doc The process that watched tables by it has ended.
-spec stop(pid()) -> ok.
stop(Connection) ->
    gen_server:cast(Connection, stop).

-spec init({pid(), tabd_options:settings()}) -> {ok, #state{}, {continue, open}}.
init({Pool, Settings}) ->
    monitor(process, Pool),
    {ok, #state{pool = Pool, settings = Settings}, {continue, open}}.

-spec handle_continue(open, #state{}) -> step().
handle_continue(open, #state{settings = #{address := Address, timeout := Timeout}} = State) ->
    %% `infinity', as an atom, is above every number.
    case open(Address, Timeout, erlang:monotonic_time(millisecond) + min(Timeout, ?OPENING)) of
        {ok, Socket} ->
            tabd_pool:opened(State#state.pool, self()),
            {noreply, State#state{socket = Socket}};
        {error, Reason} ->
            {stop, {shutdown, {closed, Reason}}, State}
    end.

open(Address, Timeout, Deadline) ->
    {Host, Port} = case Address of {local, Path} -> {{local, Path}, 0}; _ -> Address end,
    Options = [binary, {packet, 4}, {active, false}, {send_timeout, Timeout}, {send_timeout_close, true}],
    NoDelay = [{nodelay, true} || element(1, Address) =/= local],
    try gen_tcp:connect(Host, Port, NoDelay ++ Options, left(Deadline)) of
        {ok, Socket} -> greet(Socket, Deadline);
        Error -> Error
    catch
        exit:Reason -> {error, Reason}
    end.

left(Deadline) -> max(0, Deadline - erlang:monotonic_time(millisecond)).

%% Any request shows that the connection is served, and this one changes nothing. A full server sends a refusal, in reply to no request, and
%% closes the connection: sending may fail then, and the refusal can still be read.
greet(Socket, Deadline) ->
    _ = gen_tcp:send(Socket, term_to_binary(commit)),
    case gen_tcp:recv(Socket, 0, left(Deadline)) of
        {ok, Payload} -> greeted(reply(Payload), Socket);
        {error, Reason} -> not_opened(Reason, Socket)
    end.

greeted({reply, {error, {system_limit, sessions}}}, Socket) -> not_opened(not_served, Socket);
greeted({reply, _}, Socket) ->
    case inet:setopts(Socket, [{active, true}]) of
        ok -> {ok, Socket};
        {error, _} -> not_opened(closed, Socket)
    end;
greeted(_, Socket) -> not_opened(no_tabd_server, Socket).

reply(Payload) ->
    try
        binary_to_term(Payload)
    catch
        error:badarg -> none
    end.

not_opened(Reason, Socket) ->
    gen_tcp:close(Socket),
    {error, Reason}.

-spec handle_call({request, term(), binary()}, gen_server:from(), #state{}) -> step() | {reply, outcome(), #state{}}.
handle_call({request, {unsubscribe, {table, Tab, _}}, _}, From, State) ->
    %% As in Mnesia, at whichever level.
    case State#state.watched of
        #{Tab := Level} ->
            Request = {unsubscribe, {table, Tab, Level}},
            send(Request, term_to_binary(Request), From, State);
        _ ->
            {reply, {reply, {ok, node()}}, State}
    end;
handle_call({request, Request, Payload}, From, State) ->
    send(Request, Payload, From, State).

send(Request, Payload, {Caller, _} = From, #state{settings = #{timeout := Limit, lock_timeout := Lock}} = State) ->
    Asked = #asked{from = From, request = Request, limit = timer(Limit, reply), lock = lock_timer(Lock, Request)},
    sent(gen_tcp:send(State#state.socket, Payload), State#state{asked = Asked, watcher = Caller}).

%% After any other failure the end of the socket is reported too.
sent({error, timeout}, State) -> ended_late(State);
sent(_, State) -> {noreply, State}.

timer(infinity, _) -> none;
timer(Time, What) -> erlang:start_timer(Time, self(), What).

lock_timer(infinity, _) -> none;
lock_timer(Time, Request) ->
    case may_wait(Request) of
        true -> timer(Time, lock);
        false -> none
    end.

%% Whether a request asks for locks.
may_wait(Request) when is_tuple(Request) ->
    lists:member(element(1, Request), [read, wread, write, delete, delete_object, match_object, index_read, all_keys, read_lock_table,
                                       write_lock_table, transaction]);
may_wait(_) ->
    false.

%% If a reply is pending it may take long, since its operation waits for a lock. Closing the connection makes the server undo
%% everything.
-spec handle_cast(orphan | stop, #state{}) -> step().
handle_cast(orphan, #state{asked = none} = State) ->
    undo(undo, State);
handle_cast(_, State) ->
    {stop, normal, State}.

undo(From, #state{settings = #{timeout := Limit}} = State) ->
    Asked = #asked{from = From, request = {abort, client}, limit = timer(Limit, reply)},
    sent(gen_tcp:send(State#state.socket, term_to_binary({abort, client})), State#state{asked = Asked}).

-spec handle_info(term(), #state{}) -> step().
handle_info({tcp, _, Payload}, State) ->
    case binary_to_term(Payload) of
        {reply, Reply} -> replied(Reply, State#state.asked, State);
        Event -> {noreply, told(Event, State)}
    end;
handle_info({timeout, Timer, reply}, #state{asked = #asked{limit = Timer}} = State) ->
    ended_late(State);
handle_info({timeout, Timer, lock}, #state{asked = #asked{lock = Timer} = Asked} = State) ->
    Sent = gen_tcp:send(State#state.socket, term_to_binary({abort, ?LATE})),
    sent(Sent, State#state{asked = Asked#asked{lock = late}});
handle_info({timeout, _, {ending, Tab, From}}, #state{ending = Ending} = State) when map_get(Tab, Ending) =:= From ->
    ended_late(State);
handle_info({timeout, _, _}, State) ->
    {noreply, State};
handle_info({tcp_closed, _}, State) ->
    {stop, {shutdown, {closed, closed}}, closed(State)};
handle_info({tcp_error, _, _}, State) ->
    {stop, {shutdown, {closed, closed}}, closed(State)};
handle_info({'DOWN', _, process, _, _}, State) ->
    %% The pool has ended.
    {stop, {shutdown, {closed, closed}}, closed(State)}.

%% The caller sees the end of this process: it can't give the connection back before.
ended_late(State) ->
    {stop, {shutdown, {closed, timeout}}, closed(State)}.

%% An abort was sent while the operation waited. If it ended the wait, its reply is the only one; else it is the second. A one-shot's
%% reply is always the first.
replied(Reply, #asked{lock = late, first = none, request = Request} = Asked, State) when Reply =/= {aborted, ?LATE}; element(1, Request) =:= transaction ->
    {noreply, State#state{asked = Asked#asked{first = {reply, Reply}}}};
replied(Reply, Asked, State) ->
    _ = [erlang:cancel_timer(Timer) || Timer <- [Asked#asked.limit, Asked#asked.lock], is_reference(Timer)],
    answered(Reply, Asked, State#state{asked = none}).

answered({error, no_transaction}, #asked{from = undo}, State) ->
    tabd_pool:give(State#state.pool, self()),
    {noreply, State};
answered({error, no_transaction}, #asked{from = {undo, From}}, State) ->
    answer(From, {undone, lock_timeout}, State);
answered(_, #asked{from = From}, State) when From =:= undo; element(1, From) =:= undo ->
    undo(From, State);
answered({tid, Age} = Reply, #asked{from = From}, #state{age = Before} = State) when Age =/= Before ->
    answer(From, {reply, Reply}, State#state{age = Age, restarted = none});
%% A transaction may be restarted again and again for a lock, for as long as it may wait for one.
answered(restart, #asked{from = From, lock = Lock}, #state{restarted = Since, settings = #{lock_timeout := Limit}} = State) when
    is_integer(Limit), Lock =/= late
->
    Now = erlang:monotonic_time(millisecond),
    if
        Since =:= none -> answer(From, {reply, restart}, State#state{restarted = Now});
        Now - Since < Limit -> answer(From, {reply, restart}, State);
        true -> undo({undo, From}, State)
    end;
answered(Last, #asked{from = From, lock = late, first = First, request = Request}, State) ->
    case outcome(First, Last, element(1, Request)) of
        undo -> undo({undo, From}, State);
        Outcome -> answer(From, Outcome, State)
    end;
answered(Reply, #asked{from = From, request = {unsubscribe, {table, Tab, _}}}, #state{watched = Watched} = State) when
    element(1, Reply) =:= ok, is_map_key(Tab, Watched)
->
    %% The end marker is still to come; no event comes after it.
    _ = timer(map_get(timeout, State#state.settings), {ending, Tab, From}),
    {noreply, State#state{ending = (State#state.ending)#{Tab => From}}};
answered(Reply, #asked{from = From, request = Request}, State) ->
    answer(From, {reply, Reply}, State#state{watched = watched(Request, Reply, State#state.watched)}).

answer(From, Outcome, State) ->
    gen_server:reply(From, Outcome),
    {noreply, State}.

%% The outcome of an operation, from its reply and the reply to the abort after it. The abort ended the innermost level after the operation:
%% if a refusal has ended a level before, two have ended, and everything is undone; after a restart that level was the first.
outcome({reply, {aborted, nowait}}, _, transaction) -> {reply, {aborted, lock_timeout}};
outcome(First, _, transaction) -> First;
outcome({reply, restart}, _, _) -> {undone, lock_timeout};
outcome({reply, {aborted, _}} = First, {error, no_transaction}, _) -> First;
outcome({reply, {aborted, _}}, _, _) -> undo;
outcome(_, _, _) -> {reply, {aborted, lock_timeout}}.

watched(Request, {ok, _}, Watched) when element(1, Request) =:= subscribe ->
    {table, Tab, Level} = element(2, Request),
    Watched#{Tab => Level};
watched(_, _, Watched) ->
    Watched.

told({mnesia_table_begin, _, _}, State) ->
    State;
told({mnesia_table_end, Tab, unsubscribed}, State) ->
    ended(Tab, State);
told({mnesia_table_end, Tab, deleted} = Event, State) ->
    State#state.watcher ! Event,
    ended(Tab, State);
told({mnesia_overflow, _} = Event, State) ->
    State#state.watcher ! Event,
    lists:foldl(fun ended/2, State, maps:keys(State#state.watched));
%% Of a server with `--batches'.
told({batch, _, Events}, State) ->
    lists:foldl(fun told/2, State, Events);
told(Event, State) ->
    State#state.watcher ! Event,
    State.

ended(Tab, #state{ending = Ending} = State) ->
    case Ending of
        #{Tab := From} -> gen_server:reply(From, {reply, {ok, node()}});
        _ -> ok
    end,
    State#state{watched = maps:remove(Tab, State#state.watched), ending = maps:remove(Tab, Ending)}.

%% Notifies the process that watches tables.
closed(#state{watcher = Watcher} = State) ->
    _ = [Watcher ! {mnesia_table_end, Tab, closed} || Tab <- maps:keys(State#state.watched)],
    lists:foldl(fun ended/2, State, maps:keys(State#state.watched)).
