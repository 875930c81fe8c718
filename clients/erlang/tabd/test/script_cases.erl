%% SPDX-License-Identifier: Apache-2.0

%% The client against a server that plays a script: restarts, refusals, events, and replies that do not come.
-module(script_cases).

-export([cases/0]).

-import(servers, [same/2, script/1, watched_script/1, played/0, received/1]).

-define(BEGIN, {'begin', {tid, 7}}).
-define(COMMIT, {commit, {atomic, 1}}).
-define(WRITE(Key, Reply), {{write, {t, Key, Key}}, Reply}).
-define(ABORT, {{abort, client}, {aborted, client}}).

cases() ->
    [
        {"runs again after a restart", fun runs_again/0},
        {"runs again where the restart was caught", fun restart_caught/0},
        {"an inner fun leaves a restart to the outermost", fun restart_inside/0},
        {"so many attempts", fun attempts/0},
        {"a caught refusal has ended its level", fun refusal_caught/0},
        {"an inner refusal that is caught leaves the outer level", fun inner_refusal/0},
        {"a limit leaves the transaction open", fun limit/0},
        {"a commit without a reply", fun no_reply/0},
        {"an overflow", fun overflow/0},
        {"the events of a batch", fun batched/0},
        {"unsubscribed when all is sent", fun unsubscribed/0}
    ].

writes(Keys) -> fun() -> put(calls, get(calls) + 1), [tabd:write({t, Key, Key}) || Key <- Keys], done end.

runs_again() ->
    put(calls, 0),
    script([?BEGIN, ?WRITE(1, ok), ?WRITE(2, restart), ?WRITE(1, ok), ?WRITE(2, ok), ?WRITE(3, ok), ?COMMIT]),
    same(tabd:transaction(writes([1, 2, 3])), {atomic, done}),
    same(get(calls), 2),
    played().

restart_caught() ->
    put(calls, 0),
    script([?BEGIN, ?WRITE(1, restart), ?WRITE(1, ok), ?WRITE(2, ok), ?COMMIT]),
    Write = fun(Key) -> catch tabd:write({t, Key, Key}) end,
    same(tabd:transaction(fun() -> put(calls, get(calls) + 1), {Write(1), Write(2)} end), {atomic, {ok, ok}}),
    same(get(calls), 2),
    played().

restart_inside() ->
    put(calls, 0),
    Once = [?WRITE(1, ok), ?BEGIN],
    script([?BEGIN] ++ Once ++ [?WRITE(2, restart)] ++ Once ++ [?WRITE(2, ok), {commit, {atomic, ok}}, ?COMMIT]),
    Inner = fun() -> tabd:transaction(fun() -> tabd:write({t, 2, 2}) end) end,
    same(tabd:transaction(fun() -> put(calls, get(calls) + 1), tabd:write({t, 1, 1}), Inner() end), {atomic, {atomic, ok}}),
    same(get(calls), 2),
    played().

attempts() ->
    put(calls, 0),
    script([?BEGIN, ?WRITE(1, restart), ?WRITE(1, restart), {{abort, nomore}, {aborted, nomore}}]),
    same(tabd:transaction(writes([1]), 2), {aborted, nomore}),
    same(get(calls), 2),
    played().

refusal_caught() ->
    script([?BEGIN, ?WRITE(1, {aborted, {bad_type, t, {t, 1, 1}}})]),
    Write = fun(Key) -> catch tabd:write({t, Key, Key}) end,
    Exit = {'EXIT', {aborted, {bad_type, {t, 1, 1}}}},
    same(tabd:transaction(fun() -> same([Write(Key) || Key <- [1, 2]], [Exit, Exit]) end), {aborted, {bad_type, {t, 1, 1}}}),
    played().

inner_refusal() ->
    script([?BEGIN, ?BEGIN, ?WRITE(1, {aborted, {no_exists, t}}), ?WRITE(2, ok), ?COMMIT]),
    Inner = fun() -> catch tabd:write({t, 1, 1}), going_on end,
    same(tabd:transaction(fun() -> {tabd:transaction(Inner), tabd:write({t, 2, 2})} end), {atomic, {{aborted, {no_exists, t}}, ok}}),
    played().

limit() ->
    Limit = {system_limit, operations},
    script([?BEGIN, ?WRITE(1, {error, Limit}), ?COMMIT, ?BEGIN, {'begin', {error, {system_limit, nesting}}}, ?COMMIT]),
    same(tabd:transaction(fun() -> catch tabd:write({t, 1, 1}) end), {atomic, {'EXIT', {aborted, Limit}}}),
    same(tabd:transaction(fun() -> tabd:transaction(fun() -> 1 end) end), {atomic, {aborted, {system_limit, nesting}}}),
    played().

no_reply() ->
    script([?BEGIN, ?WRITE(1, ok), {commit, close}]),
    put(calls, 0),
    same(tabd:transaction(writes([1])), {aborted, {outcome_unknown, closed}}),
    played(),
    script([?BEGIN, ?BEGIN, {commit, close}]),
    Closed = {aborted, {no_connection, closed}},
    same(tabd:transaction(fun() -> same(tabd:transaction(fun() -> ok end), Closed) end), Closed).

-define(SUBSCRIBE, {subscribe, {table, t, simple}}).
-define(MARK, {mnesia_table_begin, t, simple}).
-define(EVENT(Key), {mnesia_table_event, {write, {t, Key, Key}, {tid, 1}}}).
-define(OK, {ok, nonode@nohost}).

overflow() ->
    watched_script([{?SUBSCRIBE, {[?MARK, ?EVENT(1), {mnesia_overflow, 5}], ?OK, []}}, {?SUBSCRIBE, {[?MARK], ?OK, [?EVENT(2)]}}]),
    same(tabd:subscribe({table, t}), {ok, node()}),
    same(received(2), [?EVENT(1), {mnesia_overflow, 5}]),
    same(tabd:subscribe({table, t}), {ok, node()}),
    same(received(1), [?EVENT(2)]),
    played().

batched() ->
    Batches = {[?MARK, {batch, 1, [?EVENT(1), ?EVENT(2)]}], ?OK, [{batch, 2, [?EVENT(3)]}]},
    watched_script([{?SUBSCRIBE, Batches}]),
    same(tabd:subscribe({table, t}), {ok, node()}),
    same(received(3), [?EVENT(Key) || Key <- [1, 2, 3]]),
    played().

unsubscribed() ->
    End = {mnesia_table_end, t, unsubscribed},
    Unsubscribe = {unsubscribe, {table, t, simple}},
    First = [{?SUBSCRIBE, {[?MARK], ?OK, []}}, {Unsubscribe, {[?EVENT(1)], ?OK, [?EVENT(2), End]}}],
    watched_script(First ++ [{?SUBSCRIBE, {[], ?OK, [?MARK]}}, {Unsubscribe, {[End], ?OK, []}}]),
    same(tabd:subscribe({table, t}), {ok, node()}),
    same(tabd:unsubscribe({table, t, detailed}), {ok, node()}),
    {message_queue_len, Told} = process_info(self(), message_queue_len),
    same(received(Told), [?EVENT(1), ?EVENT(2)]),
    same([tabd:subscribe({table, t}), tabd:unsubscribe({table, t}), tabd:unsubscribe({table, t})], [{ok, node()}, {ok, node()}, {ok, node()}]),
    played().
