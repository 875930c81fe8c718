#!/usr/bin/env escript
%% -*- erlang -*-
%%! -noinput -kernel logger_level none
%% A server of the frames of `tabd serve` over Mnesia's RAM tables, on one node: as much of them as beside.py asks for.
%% A transaction that Mnesia runs again is told `restart`, as tabd's are.
-mode(compile).

main([]) ->
    application:set_env(mnesia, schema_location, ram),
    ok = mnesia:start(),
    Options = [binary, {packet, 4}, {active, false}, {nodelay, true}, {ip, {127, 0, 0, 1}}, {backlog, 128}],
    {ok, Listener} = gen_tcp:listen(0, Options),
    {ok, Port} = inet:port(Listener),
    io:format("listening on 127.0.0.1:~w~n", [Port]),
    accept(Listener).

accept(Listener) ->
    {ok, Socket} = gen_tcp:accept(Listener),
    Session = spawn(fun() -> receive go -> catch idle(Socket) end end),
    ok = gen_tcp:controlling_process(Socket, Session),
    Session ! go,
    accept(Listener).

idle(Socket) ->
    case next(Socket) of
        'begin' -> transaction(Socket);
        {create_table, Table, Options} -> reply(Socket, mnesia:create_table(Table, Options));
        {transaction, Operations, Retries} ->
            reply(Socket, mnesia:transaction(fun() -> [operation(It) || It <- Operations] end, Retries));
        _ -> reply(Socket, {error, badcommand})
    end,
    idle(Socket).

transaction(Socket) ->
    reply(Socket, {tid, 1}),
    put(asked, no),
    Run = fun() ->
        get(asked) =:= yes andalso reply(Socket, restart),
        put(asked, no),
        operations(Socket)
    end,
    {atomic, ok} = mnesia:transaction(Run),
    reply(Socket, {atomic, 1}).

operations(Socket) ->
    case next(Socket) of
        commit -> ok;
        Operation ->
            put(asked, yes),
            Told = operation(Operation),
            put(asked, no),
            reply(Socket, Told),
            operations(Socket)
    end.

operation({read, Table, Key}) -> mnesia:read(Table, Key);
operation({write, Record}) -> mnesia:write(Record).

next(Socket) ->
    case gen_tcp:recv(Socket, 0) of
        {ok, Payload} -> binary_to_term(Payload);
        {error, _} -> exit(closed)
    end.

reply(Socket, Reply) -> ok = gen_tcp:send(Socket, term_to_binary({reply, Reply}, [{minor_version, 2}])).
