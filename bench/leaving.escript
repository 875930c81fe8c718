#!/usr/bin/env escript
%% -*- erlang -*-
%%! -noinput -kernel logger_level none
%% The cost of a call outside of Mnesia's process: leaving.escript PROGRAM [ROUNDS], PROGRAM being the built tabd, or the port of a running server.
%% Needs Debian's erlang-mnesia.
%%
%% A process of this node writes a record of an integer and 32 bytes: to a RAM table of Mnesia in the node, and to tabd by the Erlang client and by a bare
%% socket. Batches of 20 take turns, ROUNDS times (400 by default). A row has microseconds for one write: the least of its batches and their
%% median, and the least divided by that of Mnesia's row of the same kind. Other work on the machine changes the medians.
-mode(compile).

-define(BATCH, 20).

main([Program | Rounds]) ->
    true = code:add_patha(compiled()),
    Port = port(Program),
    ok = tabd:start(#{port => Port}),
    application:set_env(mnesia, schema_location, ram),
    ok = mnesia:start(),
    [{atomic, ok} = Module:create_table(t, []) || Module <- [mnesia, tabd]],
    {ok, Socket} = gen_tcp:connect("127.0.0.1", Port, [binary, {packet, 4}, {active, false}, {nodelay, true}]),
    Loads = loads(binary:copy(<<"x">>, 32), fun(Request) -> ask(Socket, Request) end),
    Count = case Rounds of [Text] -> list_to_integer(Text); [] -> 400 end,
    Taken = [[batch(Write) || {_, _, Write} <- Loads] || _ <- lists:seq(1, Count)],
    Columns = [lists:sort([lists:nth(At, Row) || Row <- Taken]) || At <- lists:seq(1, length(Loads))],
    io:format("| A write | least, us | median, us | times Mnesia's least |~n|---|---|---|---|~n"),
    Base = [{Kind, hd(Column)} || {{Kind, "Mnesia" ++ _, _}, Column} <- lists:zip(Loads, Columns)],
    [row(Load, Column, proplists:get_value(element(1, Load), Base)) || {Load, Column} <- lists:zip(Loads, Columns)];
main(_) ->
    io:format("usage: leaving.escript PROGRAM [ROUNDS]~n"),
    halt(2).

row({Kind, Name, _}, Column, Base) ->
    io:format("| ~s, ~s | ~.1f | ~.1f | ~.1f |~n", [Kind, Name, hd(Column), lists:nth((length(Column) + 1) div 2, Column), hd(Column) / Base]).

batch(Write) ->
    {Micros, _} = timer:tc(fun() -> [Write(Key) || Key <- lists:seq(1, ?BATCH)] end),
    Micros / ?BATCH.

loads(Value, Ask) ->
    Alone = "one operation alone",
    Whole = "a transaction of one write",
    [
        {Whole, "Mnesia in the process", fun(Key) -> {atomic, ok} = mnesia:transaction(fun() -> mnesia:write({t, Key, Value}) end) end},
        {Whole, "tabd by the client", fun(Key) -> {atomic, ok} = tabd:transaction(fun() -> tabd:write({t, Key, Value}) end) end},
        {Whole, "tabd by a bare socket, three round trips", fun(Key) -> {tid, _} = Ask('begin'), ok = Ask({write, {t, Key, Value}}), {atomic, _} = Ask(commit) end},
        {Whole, "tabd by the client's one-shot", fun(Key) -> {atomic, [ok]} = tabd:one_shot([{write, {t, Key, Value}}]) end},
        {Alone, "Mnesia's dirty_write", fun(Key) -> ok = mnesia:dirty_write({t, Key, Value}) end},
        {Alone, "tabd's dirty_write", fun(Key) -> ok = tabd:dirty_write({t, Key, Value}) end}
    ].

ask(Socket, Request) ->
    ok = gen_tcp:send(Socket, term_to_binary(Request)),
    {ok, Payload} = gen_tcp:recv(Socket, 0),
    {reply, Reply} = binary_to_term(Payload),
    Reply.

compiled() ->
    Ebin = string:trim(os:cmd("mktemp -d")),
    Source = filename:join([filename:dirname(filename:absname(escript:script_name())), "..", "clients", "erlang", "tabd", "src", "*.erl"]),
    [{ok, _} = compile:file(File, [{outdir, Ebin}]) || File <- filelib:wildcard(Source)],
    Ebin.

%% The server runs in a shell that kills it when this end of the shell's input is closed.
port(Program) ->
    try
        list_to_integer(Program)
    catch
        error:badarg ->
            Shell = "\"$0\" serve --port 0 --connections 16 --forever </dev/null & read -r _; kill -9 $!",
            Server = open_port({spawn_executable, "/bin/sh"}, [{args, ["-c", Shell, filename:absname(Program)]}, {line, 200}]),
            receive {Server, {data, {eol, "listening on 127.0.0.1:" ++ Port}}} -> list_to_integer(Port) end
    end.
