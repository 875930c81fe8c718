%% SPDX-License-Identifier: Apache-2.0

%% @private
%% The connections of a client: those not in use, and the process that uses each other one. If all are in use another one is opened, up to a
%% limit; beyond it a process that wants one waits. A process that watches tables has one of its own, which is not counted.
%%
%% The pool answers each caller itself, and sees the end of each connection: so no caller waits for a process that is no more.
-module(tabd_pool).
-behaviour(gen_server).

-export([start/3, take/1, watch/1, watching/1, give/2, opened/2, settings/1, know/2, known/1, is_connected/1]).
-export([init/1, handle_call/3, handle_cast/2, handle_info/2]).

-record(state, {
    settings :: tabd_options:settings(),
    %% Connections of the pool, those that are being opened among them.
    count = 0 :: non_neg_integer(),
    free = [] :: [pid()],
    waiting = queue:new() :: queue:queue({gen_server:from(), reference() | none}),
    %% What is being opened, for what, and for which caller.
    opening = #{} :: #{pid() => {take | watch, gen_server:from()}},
    %% A connection that is in use: its process, and the process's monitor.
    leases = #{} :: #{pid() => {pid(), reference()}},
    %% The connections of processes that watch tables.
    watchers = #{} :: #{pid() => pid()},
    %% Tables that the client has made or found.
    known = #{} :: #{atom() => []}
}).

-type failure() :: {error, {no_connection, term()} | {node_not_running, node()}}.

%% @doc Starts the pool under a name: `start', or `start_link' for a supervisor.
-spec start(start | start_link, atom(), tabd_options:settings()) -> {ok, pid()} | {error, term()}.
start(Start, Name, Settings) -> gen_server:Start({local, Name}, ?MODULE, Settings, []).

%% @doc A connection for exclusive use by the caller, until it gives it back or ends; and how long a one-shot may back off for its locks.
-spec take(atom()) -> {ok, pid(), timeout()} | failure().
take(Name) -> call(Name, take).

%% @doc The connection by which the caller watches tables.
-spec watch(atom()) -> {ok, pid()} | failure().
watch(Name) -> call(Name, watch).

%% @doc The one that it has, if any.
-spec watching(atom()) -> {ok, pid()} | none | failure().
watching(Name) -> call(Name, watching).

-spec settings(atom() | pid()) -> {ok, tabd_options:settings()} | failure().
settings(Name) -> call(Name, settings).

%% @doc Whether a connection of the pool is open.
-spec is_connected(atom()) -> boolean() | failure().
is_connected(Name) -> call(Name, is_connected).

%% @doc The tables that were made or found, also those that were deleted since.
-spec known(atom()) -> [atom()] | failure().
known(Name) -> call(Name, known).

-spec know(atom(), atom()) -> ok.
know(Name, Tab) -> gen_server:cast(Name, {know, Tab}).

%% The pool itself limits how long a caller waits.
call(Name, Request) ->
    try
        gen_server:call(Name, Request, infinity)
    catch
        exit:_ -> {error, {node_not_running, node()}}
    end.

%% @doc A connection is in no use any more.
-spec give(atom() | pid(), pid()) -> ok.
give(Pool, Connection) -> gen_server:cast(Pool, {give, Connection}).

%% @doc A connection is served.
-spec opened(pid(), pid()) -> ok.
opened(Pool, Connection) -> gen_server:cast(Pool, {opened, Connection}).

-spec init(tabd_options:settings()) -> {ok, #state{}}.
init(Settings) ->
    {ok, #state{settings = Settings}}.

-spec handle_call(take | watch | watching | settings | known | is_connected, gen_server:from(), #state{}) ->
    {noreply, #state{}} | {reply, term(), #state{}}.
handle_call(take, From, State) ->
    {noreply, serve(From, State)};
handle_call(watch, {Pid, _} = From, #state{watchers = Watchers} = State) ->
    case Watchers of
        #{Pid := Connection} -> {reply, {ok, Connection}, State};
        _ -> {noreply, open(watch, From, State)}
    end;
handle_call(watching, {Pid, _}, #state{watchers = Watchers} = State) ->
    case Watchers of
        #{Pid := Connection} -> {reply, {ok, Connection}, State};
        _ -> {reply, none, State}
    end;
handle_call(settings, _, State) ->
    {reply, {ok, State#state.settings}, State};
handle_call(known, _, State) ->
    {reply, maps:keys(State#state.known), State};
handle_call(is_connected, _, #state{count = Count, opening = Opening} = State) ->
    {reply, Count > length([take || {take, _} <- maps:values(Opening)]), State}.

%% A free connection, a new one, or an entry in the queue.
serve(From, #state{free = [Connection | Free]} = State) ->
    lend(take, From, Connection, State#state{free = Free});
serve(From, #state{count = Count, settings = #{connections := Most}} = State) when Count < Most ->
    open(take, From, State#state{count = Count + 1});
serve(From, #state{waiting = Waiting, settings = #{timeout := Timeout}} = State) ->
    Timer = if Timeout =:= infinity -> none; true -> erlang:start_timer(Timeout, self(), waiting) end,
    State#state{waiting = queue:in({From, Timer}, Waiting)}.

open(Use, From, #state{opening = Opening} = State) ->
    {ok, Connection} = tabd_connection:start(self(), State#state.settings),
    monitor(process, Connection),
    State#state{opening = Opening#{Connection => {Use, From}}}.

lend(Use, {Pid, _} = From, Connection, #state{leases = Leases, settings = #{lock_timeout := Lock}} = State) ->
    gen_server:reply(From, case Use of take -> {ok, Connection, Lock}; watch -> {ok, Connection} end),
    State#state{leases = Leases#{Connection => {Pid, monitor(process, Pid)}}}.

-spec handle_cast({opened | give, pid()} | {know, atom()}, #state{}) -> {noreply, #state{}}.
handle_cast({opened, Connection}, #state{opening = Opening, watchers = Watchers} = State) ->
    {{Use, {Pid, _} = From}, Others} = maps:take(Connection, Opening),
    Lent = lend(Use, From, Connection, State#state{opening = Others}),
    case Use of
        take -> {noreply, Lent};
        watch -> {noreply, Lent#state{watchers = Watchers#{Pid => Connection}}}
    end;
handle_cast({know, Tab}, #state{known = Known} = State) ->
    {noreply, State#state{known = Known#{Tab => []}}};
handle_cast({give, Connection}, State) ->
    case is_process_alive(Connection) of
        true -> {noreply, next(State#state{free = [Connection | State#state.free]}, Connection)};
        false -> {noreply, State}
    end.

next(State, Connection) ->
    waiting(released(Connection, State)).

waiting(#state{waiting = Waiting} = State) ->
    case queue:out(Waiting) of
        {{value, {From, Timer}}, Rest} ->
            Timer =:= none orelse erlang:cancel_timer(Timer),
            serve(From, State#state{waiting = Rest});
        {empty, _} ->
            State
    end.

released(Connection, #state{leases = Leases} = State) ->
    case Leases of
        #{Connection := {_, Monitor}} ->
            demonitor(Monitor, [flush]),
            State#state{leases = maps:remove(Connection, Leases)};
        _ ->
            State
    end.

-spec handle_info({timeout, reference(), waiting} | {'DOWN', reference(), process, pid(), term()}, #state{}) -> {noreply, #state{}}.
handle_info({timeout, Timer, waiting}, #state{waiting = Waiting} = State) ->
    {Late, InTime} = lists:partition(fun({_, It}) -> It =:= Timer end, queue:to_list(Waiting)),
    _ = [gen_server:reply(From, {error, {no_connection, timeout}}) || {From, _} <- Late],
    {noreply, State#state{waiting = queue:from_list(InTime)}};
handle_info({'DOWN', Monitor, process, Pid, Reason}, #state{leases = Leases} = State) ->
    case [Connection || {Connection, {_, Leased}} <- maps:to_list(Leases), Leased =:= Monitor] of
        [Connection] ->
            Watcher = maps:get(Pid, State#state.watchers, none),
            leave(Connection, Watcher =:= Connection),
            {noreply, State#state{leases = maps:remove(Connection, Leases)}};
        [] ->
            {noreply, lost(Pid, Reason, State)}
    end.

leave(Connection, true) -> tabd_connection:stop(Connection);
leave(Connection, false) -> tabd_connection:orphan(Connection).

%% A connection has ended: one that was not served yet, one that a process watched by, or one of the pool's.
lost(Connection, Reason, #state{opening = Opening} = State) when is_map_key(Connection, Opening) ->
    {{Use, From}, Others} = maps:take(Connection, Opening),
    gen_server:reply(From, {error, {no_connection, why(Reason)}}),
    case Use of
        take -> fewer(Connection, State#state{opening = Others});
        watch -> State#state{opening = Others}
    end;
lost(Connection, _, #state{watchers = Watchers} = State) ->
    case [Pid || {Pid, Watched} <- maps:to_list(Watchers), Watched =:= Connection] of
        [Pid] -> released(Connection, State#state{watchers = maps:remove(Pid, Watchers)});
        [] -> fewer(Connection, State)
    end.

fewer(Connection, #state{free = Free, count = Count} = State) ->
    next(State#state{free = lists:delete(Connection, Free), count = Count - 1}, Connection).

why({shutdown, {closed, Reason}}) -> Reason;
why(Reason) -> Reason.
