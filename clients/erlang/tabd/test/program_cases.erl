%% SPDX-License-Identifier: Apache-2.0

%% The client against the built program.
-module(program_cases).

-export([cases/0]).

-import(servers, [same/2, serve/1, serve/2, serve/3, client/1, kill/1, do/1, received/1]).

cases() ->
    [
        {"a program of Mnesia prints the same", fun bank/0},
        {"each raise counts once", fun raises/0},
        {"killed processes leave their connections", fun killed/0},
        {"a process that is killed while it waits", fun killed_waiting/0},
        {"what can't be kept", fun badterms/0},
        {"match variables", fun variables/0},
        {"no dirty call in a transaction", fun dirty_inside/0},
        {"one-shots", fun one_shots/0},
        {"events", fun events/0},
        {"events of a server that sends batches", fun batches_served/0},
        {"a subscriber that ends", fun subscriber_ends/0},
        {"the server is killed and started anew", fun restarted/0},
        {"no server", fun no_server/0}
    ].

bank() ->
    {Port, Server} = serve(16),
    {ok, Wanted} = file:read_file(filename:join(get(here), "bank.out")),
    Run = "erl -noshell -pa ~s -eval 'application:set_env(tabd, port, ~b), bank:main(), halt(0).' 2>&1",
    same(list_to_binary(os:cmd(lists:flatten(io_lib:format(Run, [get(ebin), Port])))), Wanted),
    kill(Server).

raises() ->
    %% The pool has no more connections than the server serves.
    {Port, Server} = serve(4),
    ok = tabd:start([{port, Port}, {connections, 4}]),
    {atomic, ok} = tabd:create_table(t, []),
    do(fun() -> tabd:write({t, 1, 0}) end),
    Self = self(),
    Raise = fun() ->
        Self ! call,
        [{t, 1, Value}] = tabd:read(t, 1),
        tabd:write({t, 1, Value + 1}),
        Value + 1
    end,
    [spawn_link(fun() -> [Self ! {told, do(Raise)} || _ <- lists:seq(1, 20)] end) || _ <- lists:seq(1, 8)],
    Told = [receive {told, Value} -> Value end || _ <- lists:seq(1, 160)],
    same(lists:sort(Told), lists:seq(1, 160)),
    {message_queue_len, Calls} = process_info(self(), message_queue_len),
    same(Calls > 160, true),
    kill(Server).

killed() ->
    {Port, Server} = serve(2),
    ok = tabd:start(#{port => Port, connections => 2}),
    {atomic, ok} = tabd:create_table(t, []),
    Self = self(),
    Inside = fun() -> tabd:write({t, 1, mad}), tabd:transaction(fun() -> Self ! {inside, self()}, timer:sleep(infinity) end) end,
    Kill = fun() ->
        spawn(fun() -> tabd:transaction(Inside) end),
        receive {inside, Killed} -> exit(Killed, kill) end
    end,
    [Kill() || _ <- lists:seq(1, 20)],
    same(do(fun() -> tabd:wread({t, 1}) end), []),
    kill(Server).

killed_waiting() ->
    Server = client(3),
    {atomic, ok} = tabd:create_table(t, []),
    Self = self(),
    %% The older of the two waits for the younger's lock.
    Older = spawn(fun() -> tabd:transaction(fun() -> tabd:write({t, 2, old}), Self ! older, receive go -> tabd:read(t, 1) end end) end),
    receive older -> ok end,
    do(fun() ->
        tabd:write({t, 1, young}),
        Older ! go,
        timer:sleep(200),
        exit(Older, kill),
        tabd:wread({t, 2})
    end),
    same(do(fun() -> tabd:all_keys(t) end), [1]),
    kill(Server).

badterms() ->
    Server = client(1),
    {atomic, ok} = tabd:create_table(t, []),
    Write = fun(Value) -> tabd:transaction(fun() -> tabd:write({t, 1, Value}) end) end,
    Values = [1.5, self(), make_ref(), fun cases/0, 1 bsl 127, [a | b], <<1:3>>, binary:copy(<<"x">>, 1048576)],
    same([Write(Value) || Value <- Values], [{aborted, {badterm, {write, {t, 1, Value}}}} || Value <- Values]),
    same([Write(Value) || Value <- [(1 bsl 127) - 1, #{a => [1]}, "text", <<"b">>, 'ä']], lists:duplicate(5, {atomic, ok})),
    same(catch tabd:dirty_write({t, 1, 0.5}), {'EXIT', {aborted, {badterm, {write, {t, 1, 0.5}}}}}),
    same(do(fun() -> tabd:read(t, 1) end), [{t, 1, 'ä'}]),
    kill(Server).

variables() ->
    Server = client(1),
    {atomic, ok} = tabd:create_table(t, []),
    do(fun() -> [tabd:write({t, N, {N rem 2, N}}) || N <- [1, 2, 3]], tabd:write({t, 4, #{a => 1}}) end),
    Match = fun(Pattern) -> tabd:transaction(fun() -> tabd:match_object(Pattern) end) end,
    same(Match({t, '$1', {'$1', '$1'}}), {atomic, [{t, 1, {1, 1}}]}),
    same(Match({t, '$1', {'_', '$1'}}), {atomic, [{t, N, {N rem 2, N}} || N <- [1, 2, 3]]}),
    same(Match({t, 4, #{a => '$1'}}), {atomic, [{t, 4, #{a => 1}}]}),
    same(Match({t, #{}, '_'}), {atomic, []}),
    kill(Server).

dirty_inside() ->
    Server = client(1),
    {atomic, ok} = tabd:create_table(t, []),
    Exit = {'EXIT', {aborted, in_transaction}},
    same(do(fun() -> {catch tabd:dirty_read(t, 1), catch tabd:dirty_update_counter(t, 1, 1), tabd:table_info(t, size)} end), {Exit, Exit, 0}),
    kill(Server).

one_shots() ->
    Server = client(1),
    {atomic, ok} = tabd:create_table(t, []),
    Inner = {transaction, [{write, {t, 2, b}}, {abort, why}]},
    same(tabd:one_shot([{write, {t, 1, a}}, Inner, {all_keys, t}]), {atomic, [ok, {aborted, why}, [1]]}),
    same(tabd:one_shot([{delete, {t, 1}}, {read, none, 1}], 0), {aborted, {no_exists, none}}),
    same(tabd:dirty_read(t, 1), [{t, 1, a}]),
    same(catch tabd:dirty_read(none, 1), {'EXIT', {aborted, {no_exists, none}}}),
    kill(Server).

events() ->
    Server = client(2),
    {atomic, ok} = tabd:create_table(t, []),
    do(fun() -> tabd:write({t, 0, 0}) end),
    same(tabd:subscribe({table, t, simple}, dump), {ok, node()}),
    same(received(1), [{mnesia_table_begin, t, simple, [{t, 0, 0}]}]),
    do(fun() -> tabd:write({t, 1, a}), tabd:write({t, 1, b}), tabd:delete({t, 2}), tabd:delete_object({t, 1, b}) end),
    [{_, {write, {t, 1, a}, Tid}}, {_, {write, {t, 1, b}, Tid}}, {_, {delete, {t, 2}, Tid}}, {_, {delete_object, {t, 1, b}, Tid}}] = received(4),
    same(element(1, Tid), tid),
    same(tabd:subscribe({table, t, detailed}), {error, {already_exists, {table, t, detailed}}}),
    same([tabd:subscribe(What) || What <- [system, {table, t, all}]], [{error, {badarg, system}}, {error, {badarg, {table, t, all}}}]),
    {atomic, ok} = tabd:delete_table(t),
    same(received(1), [{mnesia_table_end, t, deleted}]),
    {atomic, ok} = tabd:create_table(t, []),
    same(tabd:subscribe({table, t, detailed}), {ok, node()}),
    kill(Server),
    same(received(1), [{mnesia_table_end, t, closed}]).

batches_served() ->
    {Port, Server} = serve(2, ["--batches"]),
    ok = tabd:start(Port),
    {atomic, ok} = tabd:create_table(t, []),
    same(tabd:subscribe({table, t}), {ok, node()}),
    do(fun() -> [tabd:write({t, Key, Key}) || Key <- [1, 2, 3]] end),
    {atomic, ok} = tabd:delete_table(t),
    [{_, {write, {t, 1, 1}, Tid}}, {_, {write, {t, 2, 2}, Tid}}, {_, {write, {t, 3, 3}, Tid}}, End] = received(4),
    same(End, {mnesia_table_end, t, deleted}),
    kill(Server).

subscriber_ends() ->
    Server = client(3),
    {atomic, ok} = tabd:create_table(t, []),
    {Subscriber, Monitor} = spawn_monitor(fun() -> {ok, _} = tabd:subscribe({table, t}) end),
    receive {'DOWN', Monitor, _, Subscriber, Why} -> same(Why, normal) end,
    timer:sleep(100),
    do(fun() -> tabd:write({t, 1, 1}) end),
    same(tabd:subscribe({table, t}, dump), {ok, node()}),
    same(received(1), [{mnesia_table_begin, t, simple, [{t, 1, 1}]}]),
    same(tabd:stop(), stopped),
    same(received(1), [{mnesia_table_end, t, closed}]),
    kill(Server).

restarted() ->
    {Port, Server} = serve(4),
    ok = tabd:start(Port),
    {atomic, ok} = tabd:create_table(t, []),
    kill(Server),
    timer:sleep(200),
    {aborted, {no_connection, _}} = tabd:transaction(fun() -> tabd:read(t, 1) end),
    {Port, Next} = serve(4, Port, 20),
    same(tabd:transaction(fun() -> tabd:read(t, 1) end), {aborted, {no_exists, t}}),
    {atomic, ok} = tabd:create_table(t, []),
    same(do(fun() -> tabd:read(t, 1) end), []),
    kill(Next).

no_server() ->
    Down = {node_not_running, node()},
    same(tabd:transaction(fun() -> 1 end), {aborted, Down}),
    same(tabd:create_table(t, []), {aborted, Down}),
    same(tabd:subscribe({table, t}), {error, Down}),
    same(catch tabd:dirty_read(t, 1), {'EXIT', {aborted, Down}}),
    {error, {no_connection, econnrefused}} = tabd:start(1),
    same(tabd:stop(), stopped).
