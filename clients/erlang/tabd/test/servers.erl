%% SPDX-License-Identifier: Apache-2.0

%% What the tests start and compare: the built program, a server that plays a script, and clients of them.
-module(servers).

-export([main/2, same/2, serve/1, serve/2, serve/3, serve_at/2, client/1, kill/1, do/1, received/1]).
-export([script/1, script/2, watched_script/1, scripts/2, played/0]).

%% Runs the cases of a module whose names have a part.
main(Module, [Ebin, Program, Here | Part]) ->
    Cases = [Case || {Name, _} = Case <- Module:cases(), Part =:= [] orelse string:find(Name, hd(Part)) =/= nomatch],
    Failed = [Name || {Name, Case} <- Cases, not passes(Name, Case, [{ebin, Ebin}, {program, Program}, {here, Here}])],
    io:format("counted ~b ~b~n", [length(Cases) - length(Failed), length(Failed)]),
    halt(0).

%% Runs a case in a process of its own, and stops the clients that it started. A case that is skipped prints the reason.
passes(Name, Case, Names) ->
    Run = fun() ->
        [put(Key, Value) || {Key, Value} <- Names],
        case Case() of
            {left_out, Why} -> exit({left_out, Why});
            _ -> ok
        end
    end,
    {Pid, Monitor} = spawn_monitor(Run),
    Result = receive {'DOWN', Monitor, _, _, Why} -> Why after 150000 -> exit(Pid, kill), too_long end,
    [tabd:stop(Client) || Client <- [tabd, one, two, other]],
    told(Name, Result).

told(_, normal) -> true;
told(Name, {left_out, Why}) -> io:format("~s: skipped, ~s~n", [Name, Why]), true;
told(Name, Result) -> io:format("~s: ~p~n", [Name, Result]), false.

%% Ends the case if the two are not equal.
same(Found, Found) -> ok;
same(Found, Wanted) -> exit({found, Found, wanted, Wanted}).

%% The program, and a client of it

serve(Connections) -> serve(Connections, []).

serve(Connections, Words) -> serve(Connections, 0, 20, Words).

serve(Connections, At, Left) -> serve(Connections, At, Left, []).

%% The server runs in a shell that kills it when this end of the shell's input is closed: by `kill', or with the case that has failed.
serve(Connections, At, Left, More) ->
    case started(["--port", integer_to_list(At), "--connections", integer_to_list(Connections) | More]) of
        {<<"listening on ", Address/binary>>, Server} ->
            {binary_to_integer(lists:last(binary:split(Address, <<":">>))), Server};
        none ->
            %% After a kill the port may not be free at once.
            Left > 0 orelse exit(no_server),
            serve(Connections, At, Left - 1, More)
    end.

%% At a socket file.
serve_at(Path, Connections) ->
    {_, Server} = started(["--socket", Path, "--connections", integer_to_list(Connections), "--forever"]),
    Server.

started(Words) ->
    Shell = "\"$0\" \"$@\" </dev/null & read -r _; kill -9 $! 2>/dev/null; wait",
    Server = open_port({spawn_executable, "/bin/sh"}, [{args, ["-c", Shell, get(program), "serve" | Words]}, {line, 200}, binary]),
    receive
        {Server, {data, {eol, Line}}} -> {Line, Server}
    after 3000 ->
        kill(Server),
        none
    end.

client(Connections) ->
    {Port, Server} = serve(Connections),
    ok = tabd:start(Port),
    Server.

kill(Server) ->
    port_close(Server),
    %% What it has written before.
    receive {Server, _} -> ok after 0 -> ok end.

do(Fun) ->
    {atomic, Value} = tabd:transaction(Fun),
    Value.

%% A server of one connection that plays a script: each request has to arrive, and nothing after it before its reply. Then the reply is sent,
%% with events before and after it if it is `{Before, Reply, After}'. `close' ends the connection instead, and `silent' sends no reply.

script(Steps) -> script(Steps, #{}).

script(Steps, Options) -> scripts([Steps], Options).

%% As `script', for several connections, one after another.
scripts(Scripts, Options) -> ok = tabd:start(Options#{port => scripted(Scripts), connections => 1}).

%% That connection is the one of a process that watches.
watched_script(Steps) -> {ok, _} = tabd:start_link(#{port => scripted([Steps])}).

scripted(Scripts) ->
    {ok, Listener} = gen_tcp:listen(0, [binary, {packet, 4}, {active, false}, {ip, {127, 0, 0, 1}}]),
    {ok, Port} = inet:port(Listener),
    Self = self(),
    Greeting = [{commit, {error, no_transaction}}],
    spawn_link(fun() -> Self ! {script, lists:usort([play(Listener, Greeting ++ Steps) || Steps <- Scripts])} end),
    Port.

play(Listener, Steps) ->
    {ok, Socket} = gen_tcp:accept(Listener),
    case [Fault || Step <- Steps, Fault <- [step(Socket, Step)], Fault =/= ok] of
        [] ->
            case gen_tcp:recv(Socket, 0) of
                {error, closed} -> ok;
                {ok, More} -> {behind_the_last, binary_to_term(More)}
            end;
        [Fault | _] ->
            Fault
    end.

step(Socket, {Wanted, Reply}) ->
    case gen_tcp:recv(Socket, 0, 5000) of
        {ok, Payload} ->
            case {binary_to_term(Payload), gen_tcp:recv(Socket, 0, 40)} of
                {Wanted, {error, timeout}} -> answer(Socket, Reply);
                {Wanted, Ahead} -> {ahead, Wanted, Ahead};
                {Other, _} -> {came, Other, wanted, Wanted}
            end;
        Error ->
            {Error, wanted, Wanted}
    end.

answer(Socket, close) -> gen_tcp:close(Socket);
answer(_, silent) -> ok;
answer(Socket, {Before, Reply, After}) ->
    [send(Socket, Event) || Event <- Before],
    send(Socket, {reply, Reply}),
    timer:sleep(50),
    [send(Socket, Event) || Event <- After],
    ok;
answer(Socket, Reply) -> send(Socket, {reply, Reply}).

send(Socket, Term) -> gen_tcp:send(Socket, term_to_binary(Term)).

played() ->
    tabd:stop(),
    receive {script, Result} -> same(Result, [ok]) after 5000 -> exit(no_end_of_script) end.

received(Count) -> [receive Message -> Message after 3000 -> none end || _ <- lists:seq(1, Count)].
