%% SPDX-License-Identifier: Apache-2.0

%% Starts of a client, the errors of starts that fail, and several clients of one node.
-module(start_cases).

-behaviour(supervisor).

-export([cases/0, init/1]).

-import(servers, [same/2, serve/1, serve/2, serve_at/2, kill/1, do/1]).

cases() ->
    [
        {"a server that is full", fun full/0},
        {"what is no server", fun no_server/0},
        {"options that are none", fun bad_options/0},
        {"a second start", fun second_start/0},
        {"a connection that dies before it is served", fun dies_opening/0},
        {"several clients", fun named/0},
        {"clients under a supervisor", fun supervised/0},
        {"a socket file", fun socket_file/0}
    ].

-define(FULL, {no_connection, not_served}).

full() ->
    {Port, Server} = serve(4, ["--forever"]),
    [Last | _] = [held(Port) || _ <- [1, 2, 3, 4]],
    same([tabd:start(Port) || _ <- lists:seq(1, 20)], [{error, ?FULL} || _ <- lists:seq(1, 20)]),
    same(whereis(tabd), undefined),
    {ok, _} = tabd:start_link(Port),
    same(lists:usort([tabd:transaction(fun() -> tabd:all_keys(t) end) || _ <- lists:seq(1, 20)]), [{aborted, ?FULL}]),
    same(lists:usort([catch tabd:dirty_write({t, 1, 1}) || _ <- lists:seq(1, 20)]), [{'EXIT', {aborted, ?FULL}}]),
    same([tabd:subscribe({table, t}), tabd:create_table(t, [])], [{error, ?FULL}, {aborted, ?FULL}]),
    gen_tcp:close(Last),
    same(served(100), {atomic, ok}),
    kill(Server).

%% What each connection is sent before anything comes, and how the start ends. `not_served' is said of a full server only.
no_server() ->
    Refusal = term_to_binary({reply, {error, {system_limit, sessions}}}),
    Starts = [
        {Refusal, not_served},
        {none, closed},
        {<<"HTTP">>, no_tabd_server},
        {term_to_binary(hello), no_tabd_server}
    ],
    [same([tabd:start(sending(Sent)) || _ <- lists:seq(1, 20)], [{error, {no_connection, Why}} || _ <- lists:seq(1, 20)]) || {Sent, Why} <- Starts].

%% The port of a server that closes each connection at once, or after it has sent this.
sending(Sent) ->
    {ok, Listener} = gen_tcp:listen(0, [binary, {packet, 4}, {active, false}, {ip, {127, 0, 0, 1}}]),
    spawn_link(fun() -> send_to_each(Listener, Sent) end),
    {ok, Port} = inet:port(Listener),
    Port.

send_to_each(Listener, Sent) ->
    {ok, Socket} = gen_tcp:accept(Listener),
    Sent =:= none orelse gen_tcp:send(Socket, Sent),
    gen_tcp:close(Socket),
    send_to_each(Listener, Sent).

%% After a while there is room for one more.
served(Left) ->
    case tabd:create_table(t, []) of
        {aborted, ?FULL} when Left > 0 -> timer:sleep(100), served(Left - 1);
        Result -> Result
    end.

%% A connection that is served.
held(Port) ->
    {ok, Socket} = gen_tcp:connect("127.0.0.1", Port, [binary, {packet, 4}, {active, false}]),
    ok = gen_tcp:send(Socket, term_to_binary(commit)),
    {ok, _} = gen_tcp:recv(Socket, 0, 3000),
    Socket.

bad_options() ->
    Bad = [
        {prot, 4000}, {port, "4000"}, {port, 0}, {port, 65536}, {port, 4000.0}, {host, 7}, {host, ""}, {host, {1, 2, 3}}, {connections, 0},
        {connections, "8"}, {timeout, 0}, {timeout, never}, {lock_timeout, -1}, {socket, ""}, {socket, 1}, connections, {port, 1, 2}
    ],
    same([tabd:start([{timeout, 1000}, Option]) || Option <- Bad], [{error, {bad_option, Option}} || Option <- Bad]),
    same(tabd:start(#{port => "4000"}), {error, {bad_option, {port, "4000"}}}),
    same(tabd:start([{port, 1}, {port, 2}]), {error, {bad_option, {port, 2}}}),
    same(tabd:start([{socket, "/tmp/x"}, {port, 4000}]), {error, {bad_option, {port, 4000}}}),
    same([tabd:start("4000"), tabd:start(none)], [{error, {bad_option, $4}}, {error, {bad_option, none}}]),
    same([tabd:start_link([{prot, 1}]), tabd:start(other, [{prot, 1}])], [{error, {bad_option, {prot, 1}}}, {error, {bad_option, {prot, 1}}}]),
    same([whereis(tabd), whereis(other)], [undefined, undefined]).

second_start() ->
    {Port, Server} = serve(8, ["--forever"]),
    {Other, OtherServer} = serve(8, ["--forever"]),
    same(tabd:start(Port), ok),
    Pool = whereis(tabd),
    Same = [Port, #{port => Port}, [{port, Port}, {host, "127.0.0.1"}], #{host => <<"127.0.0.1">>, port => Port, connections => 8, timeout => infinity}],
    same([tabd:start(Options) || Options <- Same], [ok, ok, ok, ok]),
    Others = [Other, #{port => Port, connections => 7}, [{port, Port}, {timeout, 1000}], [{port, Port}, {host, "localhost"}], [{socket, "/tmp/x"}]],
    same([tabd:start(Options) || Options <- Others], [{error, {already_started, Pool}} || _ <- Others]),
    same({tabd:start_link(Port), whereis(tabd)}, {{error, {already_started, Pool}}, Pool}),
    %% The name is another process's.
    true = register(other, Self = spawn_link(fun() -> receive stop -> ok end end)),
    same(tabd:start(other, Port), {error, {already_started, Self}}),
    Self ! stop,
    same([tabd:create_table(t, []), tabd:stop(), tabd:start(Other), tabd:delete_table(t)], [{atomic, ok}, stopped, ok, {aborted, {no_exists, t}}]),
    kill(Server),
    kill(OtherServer).

%% No server says anything here: the callers wait for what is killed.
dies_opening() ->
    {ok, Listener} = gen_tcp:listen(0, [{ip, {127, 0, 0, 1}}]),
    {ok, Port} = inet:port(Listener),
    {ok, _} = tabd:start_link(#{port => Port, connections => 1}),
    Self = self(),
    Run = fun(What) -> fun() -> Self ! {What, tabd:transaction(fun() -> ok end)} end end,
    spawn_link(Run(first)),
    timer:sleep(100),
    spawn_link(Run(second)),
    spawn_link(fun() -> Self ! {watcher, tabd:subscribe({table, t})} end),
    timer:sleep(100),
    [exit(Pid, kill) || Pid <- opening()],
    [same(receive {What, Told} -> Told after 2000 -> nothing end, Result) || {What, Result} <- [{first, {aborted, {no_connection, killed}}}, {watcher, {error, {no_connection, killed}}}]],
    %% The second has its turn.
    timer:sleep(100),
    [exit(Pid, kill) || Pid <- opening()],
    same(receive {second, Told} -> Told after 2000 -> nothing end, {aborted, {no_connection, killed}}).

opening() ->
    [Pid || Pid <- processes(), {dictionary, Words} <- [process_info(Pid, dictionary)],
            {'$initial_call', {tabd_connection, _, _}} <- Words].

named() ->
    {Port, Server} = serve(8, ["--forever"]),
    {Other, OtherServer} = serve(8, ["--forever"]),
    same([tabd:start(one, Port), tabd:start(two, [{port, Other}]), tabd:start(two, Other), whereis(tabd)], [ok, ok, ok, undefined]),
    same(tabd:transaction(fun() -> ok end), {aborted, {node_not_running, node()}}),
    Each = fun(Do) -> [tabd:with(Name, Do) || Name <- [one, two]] end,
    same(Each(fun() -> tabd:create_table(t, []) end), [{atomic, ok}, {atomic, ok}]),
    Write = fun(Value) -> tabd:write({t, 1, Value}) end,
    Both = fun() -> Write(a), {tabd:with(two, fun() -> tabd:transaction(fun() -> Write(b), same(tabd:is_transaction(), true) end) end), tabd:abort(why)} end,
    same(tabd:with(one, fun() -> tabd:transaction(Both) end), {aborted, why}),
    same(Each(fun() -> tabd:dirty_read(t, 1) end), [[], [{t, 1, b}]]),
    %% In a transaction of one, the calls of two are in none.
    Inside = fun() -> Write(c), tabd:with(two, fun() -> {tabd:is_transaction(), tabd:dirty_read(t, 1), catch tabd:read(t, 1)} end) end,
    same(tabd:with(one, fun() -> tabd:transaction(Inside) end), {atomic, {false, [{t, 1, b}], {'EXIT', {aborted, no_transaction}}}}),
    same(catch tabd:with(two, fun() -> throw(x) end), x),
    same([tabd:start(Other), tabd:dirty_read(t, 1), tabd:stop(two), tabd:dirty_read(t, 1), tabd:stop(one)], [ok, [{t, 1, b}], stopped, [{t, 1, b}], stopped]),
    same(Each(fun() -> tabd:transaction(fun() -> ok end) end), [{aborted, {node_not_running, node()}} || _ <- [1, 2]]),
    kill(Server),
    kill(OtherServer).

supervised() ->
    {Port, Server} = serve(8, ["--forever"]),
    {ok, Pid} = supervisor:start_link(?MODULE, #{strategy => one_for_one}),
    {ok, _} = supervisor:start_child(Pid, tabd:child_spec(Port)),
    {ok, Named} = supervisor:start_child(Pid, tabd:child_spec(other, [{port, Port}])),
    same([do(fun() -> ok end), tabd:with(other, fun() -> do(fun() -> ok end) end), whereis(other)], [ok, ok, Named]),
    exit(Named, kill),
    again(Named, 100),
    same(tabd:with(other, fun() -> do(fun() -> ok end) end), ok),
    unlink(Pid),
    gen_server:stop(Pid),
    kill(Server).

again(Old, Left) ->
    case whereis(other) of
        New when is_pid(New), New =/= Old -> ok;
        _ when Left > 0 -> timer:sleep(50), again(Old, Left - 1)
    end.

%% The supervisor of that case.
init(Flags) -> {ok, {Flags, []}}.

socket_file() ->
    Path = filename:join(get(ebin), "tabd.socket"),
    Server = serve_at(Path, 8),
    same([tabd:start(#{socket => Path}), tabd:start([{socket, list_to_binary(Path)}])], [ok, ok]),
    same([tabd:create_table(t, []), tabd:dirty_write({t, 1, a}), do(fun() -> tabd:read(t, 1) end)], [{atomic, ok}, ok, [{t, 1, a}]]),
    same(tabd:stop(), stopped),
    kill(Server),
    {error, {no_connection, _}} = tabd:start(#{socket => Path ++ "none"}).
