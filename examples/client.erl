#!/usr/bin/env escript
%% SPDX-License-Identifier: Apache-2.0
%% A client of `tabd serve` with Erlang's own framing and terms: escript client.erl PORT
%% It makes a table, watches it, and writes a person in a transaction and in a one-shot; the last line is `ok`.

main([Port]) ->
    {ok, Socket} = gen_tcp:connect("127.0.0.1", list_to_integer(Port), [binary, {packet, 4}, {active, false}, {nodelay, true}]),
    {atomic, ok} = ask(Socket, {create_table, person, [{attributes, [name, age]}]}),
    {ok, nonode@nohost} = ask(Socket, {subscribe, {table, person, detailed}, dump}),
    {mnesia_table_begin, person, detailed, []} = event(Socket),

    {tid, First} = ask(Socket, 'begin'),
    ok = ask(Socket, {write, {person, alice, 30}}),
    {atomic, Commit} = ask(Socket, commit),
    {mnesia_table_event, {write, person, {person, alice, 30}, [], {tid, First}}} = event(Socket),

    Birthday = [{wread, {person, alice}}, {write, {person, alice, 31}}],
    {atomic, [[{person, alice, 30}], ok]} = ask(Socket, {transaction, Birthday, 10}),
    {mnesia_table_event, {write, person, {person, alice, 31}, [{person, alice, 30}], _}} = event(Socket),

    {tid, _} = ask(Socket, 'begin'),
    [{person, alice, 31}] = ask(Socket, {read, person, alice}),
    {atomic, Last} = ask(Socket, commit),
    io:format("commits ~p to ~p~nok~n", [Commit, Last]);
main(_) ->
    io:format("usage: escript client.erl PORT~n"),
    halt(2).

%% The reply to a request. The events of a commit come before or after its reply.
ask(Socket, Request) ->
    ok = gen_tcp:send(Socket, term_to_binary(Request)),
    reply(Socket).

reply(Socket) ->
    case next(Socket) of
        {reply, Reply} -> Reply;
        Event -> put(events, kept() ++ [Event]), reply(Socket)
    end.

event(Socket) ->
    case kept() of
        [Event | Events] -> put(events, Events), Event;
        [] -> next(Socket)
    end.

kept() ->
    case get(events) of
        undefined -> [];
        Events -> Events
    end.

next(Socket) ->
    {ok, Payload} = gen_tcp:recv(Socket, 0),
    binary_to_term(Payload).
