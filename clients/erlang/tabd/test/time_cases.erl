%% SPDX-License-Identifier: Apache-2.0

%% Limits of time: for a connection, for one of the pool, for a reply, and for a lock.
-module(time_cases).

-export([cases/0]).

-import(servers, [same/2, serve/2, script/2, scripts/2, played/0, kill/1, do/1]).

cases() ->
    [
        {"a server that says nothing", fun silent_server/0},
        {"no connection is free in time", fun none_free/0},
        {"a reply that does not come", fun no_reply/0},
        {"a subscription whose reply or end does not come", fun no_reply_to_watcher/0},
        {"a lock that is not granted in time", fun no_lock/0},
        {"a one-shot's lock that is not granted in time", fun no_lock_for_a_one_shot/0},
        {"a transaction that is restarted for too long", fun restarted_long/0},
        {"a reply that crosses the abort of a wait", fun crossing/0},
        {"an abort of a wait that ended more than a level", fun two_levels/0},
        {"a one-shot whose wait was aborted", fun one_shot_cut/0}
    ].

%% What the fun gives, and that it took no longer than so many milliseconds.
within(Most, Fun) ->
    {Micros, Value} = timer:tc(Fun),
    %% Other work on the machine may take the processors away.
    Micros div 1000 =< 4 * Most orelse exit({took, Micros div 1000, Value}),
    Value.

-define(LATE, {no_connection, timeout}).

silent_server() ->
    {ok, Listener} = gen_tcp:listen(0, [{ip, {127, 0, 0, 1}}]),
    {ok, Port} = inet:port(Listener),
    same(within(2000, fun() -> tabd:start(#{port => Port, timeout => 1000}) end), {error, ?LATE}).

none_free() ->
    {Port, Server} = serve(8, ["--forever"]),
    ok = tabd:start(#{port => Port, connections => 1, timeout => 1000}),
    {atomic, ok} = tabd:create_table(t, []),
    Self = self(),
    Holder = spawn_link(fun() -> Self ! {done, tabd:transaction(fun() -> Self ! inside, receive go -> tabd:write({t, 1, 1}) end end)} end),
    receive inside -> ok end,
    same(within(2000, fun() -> tabd:transaction(fun() -> ok end) end), {aborted, ?LATE}),
    same(within(2000, fun() -> catch tabd:dirty_read(t, 1) end), {'EXIT', {aborted, ?LATE}}),
    same([tabd:create_table(u, []), catch tabd:table_info(t, type)], [{aborted, ?LATE}, {'EXIT', {aborted, ?LATE}}]),
    Holder ! go,
    same(receive {done, Done} -> Done end, {atomic, ok}),
    same(do(fun() -> tabd:read(t, 1) end), [{t, 1, 1}]),
    kill(Server).

-define(BEGIN, {'begin', {tid, 7}}).
-define(WRITE(Key, Reply), {{write, {t, Key, Key}}, Reply}).
-define(ONE_SHOT, {transaction, [{write, {t, 1, 1}}], 1000}).

no_reply() ->
    Scripts = [
        [?BEGIN, ?WRITE(1, silent)],
        [?BEGIN, ?WRITE(1, ok), {commit, silent}],
        [{?ONE_SHOT, silent}],
        [{{table_info, t, type}, silent}],
        [{{delete_table, t}, silent}],
        [{'begin', silent}],
        [?BEGIN, ?WRITE(1, ok), {commit, {atomic, 1}}]
    ],
    scripts(Scripts, #{timeout => 1500}),
    Write = fun() -> tabd:transaction(fun() -> tabd:write({t, 1, 1}) end) end,
    same(Write(), {aborted, ?LATE}),
    same(Write(), {aborted, {outcome_unknown, timeout}}),
    same(catch tabd:dirty_write({t, 1, 1}), {'EXIT', {aborted, {outcome_unknown, timeout}}}),
    same(catch tabd:table_info(t, type), {'EXIT', {aborted, ?LATE}}),
    same(tabd:delete_table(t), {aborted, {outcome_unknown, timeout}}),
    same(Write(), {aborted, ?LATE}),
    same(Write(), {atomic, ok}),
    played().

no_reply_to_watcher() ->
    Subscribe = {subscribe, {table, t, simple}},
    Unsubscribe = {{unsubscribe, {table, t, simple}}, {ok, nonode@nohost}},
    scripts([[], [{Subscribe, silent}], [{Subscribe, {ok, nonode@nohost}}, Unsubscribe]], #{timeout => 1500}),
    %% The pool's own connection plays the first.
    [exit(Pid, kill) || Pid <- processes(), {dictionary, Words} <- [process_info(Pid, dictionary)], {'$initial_call', {tabd_connection, _, _}} <- Words],
    same(tabd:subscribe({table, t}), {error, ?LATE}),
    timer:sleep(50),
    same(tabd:subscribe({table, t}), {ok, node()}),
    same(within(2000, fun() -> tabd:unsubscribe({table, t}) end), {ok, node()}),
    same(servers:received(1), [{mnesia_table_end, t, closed}]),
    played().

%% The older of two waits for the younger's lock.
no_lock() ->
    {Port, Server} = serve(8, ["--forever", "--abort-waits"]),
    ok = tabd:start(#{port => Port, lock_timeout => 4000}),
    {atomic, ok} = tabd:create_table(t, []),
    Wait = fun(Key) -> within(2000, fun() -> tabd:wread({t, Key}) end) end,
    Waits = fun() -> holder(), catch Wait(1), again end,
    same(tabd:transaction(Waits), {aborted, lock_timeout}),
    free(),
    %% Only an inner level is aborted.
    Inner = fun() -> tabd:write({t, 2, outer}), holder(), {tabd:transaction(fun() -> tabd:write({t, 3, 3}), Wait(1) end), tabd:write({t, 4, outer})} end,
    same(tabd:transaction(Inner), {atomic, {{aborted, lock_timeout}, ok}}),
    free(),
    same(do(fun() -> tabd:all_keys(t) end), [1, 2, 4]),
    kill(Server).

%% Another process locks the key 1: of two transactions, the one that begins after the other is the younger.
holder() ->
    Self = self(),
    spawn_link(fun() -> {atomic, ok} = tabd:transaction(fun() -> tabd:write({t, 1, 1}), Self ! {inside, self()}, receive free -> ok end end), Self ! free end),
    receive {inside, Pid} -> put(holder, Pid) end.

free() ->
    get(holder) ! free,
    receive free -> ok end.

%% A one-shot is the youngest: it backs off and starts again.
no_lock_for_a_one_shot() ->
    {Port, Server} = serve(8, ["--forever", "--abort-waits"]),
    ok = tabd:start(#{port => Port, lock_timeout => 4000}),
    {atomic, ok} = tabd:create_table(t, []),
    holder(),
    same(within(2000, fun() -> catch tabd:dirty_read(t, 1) end), {'EXIT', {aborted, lock_timeout}}),
    free(),
    same(tabd:dirty_read(t, 1), [{t, 1, 1}]),
    kill(Server).

%% The younger of two is restarted as long as the older has its lock.
restarted_long() ->
    {Port, Server} = serve(8, ["--forever", "--abort-waits"]),
    ok = tabd:start(#{port => Port, lock_timeout => 4000}),
    {atomic, ok} = tabd:create_table(t, []),
    holder(),
    same(within(2000, fun() -> tabd:transaction(fun() -> tabd:write({t, 1, 2}) end) end), {aborted, lock_timeout}),
    same(within(2000, fun() -> tabd:transaction(fun() -> tabd:transaction(fun() -> tabd:write({t, 1, 2}) end) end) end), {aborted, lock_timeout}),
    free(),
    same(do(fun() -> tabd:write({t, 1, 3}) end), ok),
    kill(Server).

-define(CUT(Reply), {{abort, '$tabd_lock_timeout'}, Reply}).
-define(LAST, {aborted, '$tabd_lock_timeout'}).

crossing() ->
    Exit = {aborted, lock_timeout},
    Write = fun() -> put(calls, get(calls) + 1), tabd:write({t, 1, 1}) end,
    Try = fun(Steps) ->
        put(calls, 0),
        script([?BEGIN | Steps], #{lock_timeout => 400}),
        Result = tabd:transaction(Write),
        played(),
        {Result, get(calls)}
    end,
    same(Try([?WRITE(1, silent), ?CUT(?LAST)]), {Exit, 1}),
    same(Try([?WRITE(1, silent), ?CUT({[{reply, ok}], ?LAST, []})]), {Exit, 1}),
    same(Try([?WRITE(1, silent), ?CUT({[{reply, restart}], ?LAST, []})]), {Exit, 1}),
    same(Try([?WRITE(1, silent), ?CUT({[{reply, {error, {system_limit, operations}}}], ?LAST, []})]), {Exit, 1}),
    Refused = {aborted, {no_exists, t}},
    same(Try([?WRITE(1, silent), ?CUT({[{reply, Refused}], {error, no_transaction}, []})]), {Refused, 1}).

two_levels() ->
    Refused = {reply, {aborted, {no_exists, t}}},
    Undo = {{abort, client}, {error, no_transaction}},
    script([?BEGIN, ?BEGIN, ?WRITE(1, silent), ?CUT({[Refused], ?LAST, []}), Undo, ?BEGIN, {commit, {atomic, 1}}], #{lock_timeout => 400}),
    Inner = fun() -> tabd:transaction(fun() -> tabd:write({t, 1, 1}) end) end,
    same(tabd:transaction(fun() -> same(Inner(), {aborted, lock_timeout}), catch tabd:write({t, 2, 2}), done end), {aborted, lock_timeout}),
    same(tabd:transaction(fun() -> fresh end), {atomic, fresh}),
    played().

one_shot_cut() ->
    Cut = fun(First) -> [{{transaction, [{write, {t, 1, 1}}], 0}, silent}, ?CUT({[{reply, First}], {error, no_transaction}, []})] end,
    script(Cut({aborted, nowait}) ++ Cut({atomic, [ok]}), #{lock_timeout => 400}),
    same(catch tabd:dirty_write({t, 1, 1}), {'EXIT', {aborted, lock_timeout}}),
    same(tabd:dirty_write({t, 1, 1}), ok),
    played().
