%% SPDX-License-Identifier: Apache-2.0

%% A program of Mnesia: accounts and their entries, changed by processes that meet. It is compiled for mnesia and for tabd, and prints
%% the same on both. Of a transaction with several changes it does not show the events' order, which is not Mnesia's to promise.
-module(bank).
-export([main/0]).
-ifndef(DB).
-define(DB, mnesia).
-endif.
-record(account, {number, owner, balance = 0}).
-record(entry, {account, kind, amount}).

main() ->
    ok = ?DB:start(),
    show(account, ?DB:create_table(account, [{attributes, record_info(fields, account)}, {ram_copies, [node()]}, {index, [owner]}])),
    show(entry, ?DB:create_table(entry, [{type, bag}, {attributes, record_info(fields, entry)}, {ram_copies, [node()]}])),
    show(again, ?DB:create_table(account, [])),
    show(wait, ?DB:wait_for_tables([account, entry], 1000)),
    open_accounts(),
    transfers(),
    levels(),
    failures(),
    queries(),
    detailed_events(),
    dirty(),
    killed(),
    show(info, [?DB:table_info(account, Item) || Item <- [type, attributes, index, size, arity, wild_pattern]]),
    show(no_index, {?DB:del_table_index(account, owner), ?DB:del_table_index(account, 3), ?DB:table_info(account, index)}),
    show(index, {?DB:add_table_index(account, owner), length(do(fun() -> ?DB:index_read(account, bob, owner) end))}),
    show(gone, {?DB:delete_table(entry), ?DB:delete_table(entry), ?DB:delete_table(account)}),
    ?DB:stop().

%% One change a transaction, and its event.
open_accounts() ->
    show(subscribe, {?DB:subscribe({table, account, simple}), ?DB:subscribe({table, account}), ?DB:subscribe({table, none})}),
    Open = fun(Number, Owner) -> ?DB:write(#account{number = Number, owner = Owner, balance = 100}) end,
    show(open, [?DB:transaction(Open, [N, O]) || {N, O} <- [{1, ann}, {2, bob}, {3, cid}, {4, bob}]]),
    show(close, ?DB:transaction(fun() -> ?DB:delete({account, 4}) end)),
    show(other, ?DB:transaction(fun() -> ?DB:delete_object(#account{number = 3, owner = zoe}) end)),
    show(events, events(6)),
    show(unsubscribe, {?DB:unsubscribe({table, account, simple}), ?DB:unsubscribe({table, account})}).

%% Six processes move money between three accounts, each in its own order: they die and are run again. The sum stays.
transfers() ->
    Self = self(),
    Run = fun(Seed) -> rand:seed(exsss, {Seed, 1, 1}), [transfer(rand:uniform(3), rand:uniform(3), rand:uniform(60)) || _ <- lists:seq(1, 40)] end,
    Pids = [spawn_link(fun() -> Self ! {self(), Run(Seed)} end) || Seed <- lists:seq(1, 6)],
    Results = lists:append([receive {Pid, Told} -> Told end || Pid <- Pids]),
    Done = [A || {atomic, A} <- Results],
    show(kinds, lists:usort([case R of {atomic, N} when is_integer(N) -> moved; {aborted, {poor, _}} -> poor; Else -> Else end || R <- Results])),
    show(sum, do(fun() -> ?DB:foldl(fun(#account{balance = B}, Sum) -> Sum + B end, 0, account) end)),
    Entries = do(fun() -> lists:append([?DB:read(entry, N) || N <- ?DB:all_keys(entry)]) end),
    show(entries, {lists:sum([A || #entry{amount = A} <- Entries]), length(Results) > length(Done)}),
    show(balances, [B >= 0 || N <- [1, 2, 3], #account{balance = B} <- do(fun() -> ?DB:read({account, N}) end)]).

transfer(From, To, Amount) ->
    ?DB:transaction(fun() ->
        [A] = ?DB:read(account, From),
        A#account.balance >= Amount orelse ?DB:abort({poor, From}),
        ?DB:write(A#account{balance = A#account.balance - Amount}),
        [B] = ?DB:wread({account, To}),
        ?DB:write(B#account{balance = B#account.balance + Amount}),
        {atomic, ok} = ?DB:transaction(fun() -> book(From, out, -Amount), book(To, in, Amount) end),
        Amount
    end).

%% The amounts of an account's entries of a kind are one entry.
book(Number, Kind, Amount) ->
    Old = [E || E <- ?DB:read(entry, Number), E#entry.kind =:= Kind],
    [?DB:delete_object(E) || E <- Old],
    ?DB:write(#entry{account = Number, kind = Kind, amount = lists:sum([Amount | [E#entry.amount || E <- Old]])}).

levels() ->
    Write = fun(Number, Then) -> fun() -> ?DB:write(#account{number = Number, owner = dee}), Then() end end,
    Inner = fun(Number, Then) -> fun() -> ?DB:transaction(Write(Number, Then)) end end,
    Ok = fun() -> ok end,
    Abort = fun() -> ?DB:abort(inner) end,
    Both = fun() -> {(Inner(11, Ok))(), (Inner(12, Abort))(), (Inner(13, Inner(14, Abort)))(), (Inner(15, Inner(16, Ok)))(), keys()} end,
    show(levels, ?DB:transaction(Write(10, Both))),
    show(kept, do(fun() -> keys() end)),
    show(undone, ?DB:transaction(Write(20, fun() -> {atomic, ok} = (Inner(21, Ok))(), ?DB:abort(outer) end))),
    show(kept, do(fun() -> [?DB:delete({account, N}) || N <- [10, 11, 13, 15, 16]], keys() end)),
    show(inside, {?DB:is_transaction(), do(fun() -> {?DB:is_transaction(), ?DB:create_table(new, [])} end)}).

keys() -> lists:sort(?DB:all_keys(account)).

failures() ->
    Funs = [fun() -> ?DB:abort(why) end, fun() -> ?DB:abort({aborted, why}) end, fun() -> exit(why) end, fun() -> throw(why) end,
            fun() -> ?DB:read(none, 1) end, fun() -> ?DB:write({none, 1, 1}) end, fun() -> ?DB:write({account, 1}) end,
            fun() -> ?DB:transaction(fun() -> exit(inner) end) end, fun() -> ?DB:write({account, 1, a, b}), ?DB:abort({undo, 1}) end],
    show(failures, [?DB:transaction(F) || F <- Funs]),
    {aborted, {{badmatch, []}, Stack}} = ?DB:transaction(fun() -> [_] = ?DB:read(account, none) end),
    show(errors, {is_list(Stack), catch ?DB:read(account, 1), catch ?DB:abort(outside)}),
    show(retries, [?DB:transaction(fun() -> 1 end, Retries) || Retries <- [0, 1, infinity]]),
    show(args, {?DB:transaction(fun(A, B) -> A + B end, [1, 2]), ?DB:transaction(fun(A) -> A end, [x], 3)}),
    show(activity, {?DB:activity(transaction, fun(A) -> A end, [7]), catch ?DB:activity(transaction, fun() -> ?DB:abort(why) end)}).

queries() ->
    do(fun() -> [?DB:write(#account{number = {N rem 2, N}, owner = N rem 3, balance = N}) || N <- lists:seq(1, 9)] end),
    Match = fun(P) -> lists:sort(do(fun() -> ?DB:match_object(P) end)) end,
    show(index, lists:sort(do(fun() -> ?DB:index_read(account, 2, owner) end))),
    show(owned, [lists:sort(do(fun() -> ?DB:index_read(account, O, #account.owner) end)) || O <- [0, nobody]]),
    show(match, [Match(#account{number = {1, '_'}, owner = 2, balance = '_'}), Match(#account{number = {'_', '$1'}, owner = '_', balance = '$1'})]),
    show(same, Match(#account{number = {'$1', '_'}, owner = '$1', balance = '_'})),
    do(fun() -> [?DB:write(#account{number = {m, N}, balance = #{a => N rem 2, b => N}}) || N <- [1, 2, 3]] end),
    Maps = [#{a => 1}, #{a => 1, b => 1}, #{a => '$1', b => '$1'}, #{a => '_', c => '_'}],
    show(maps, [Match(#account{number = '_', owner = '_', balance = Map}) || Map <- Maps]),
    Big = [{#account{number = '$1', owner = '_', balance = '$2'}, [{'>', '$2', 6}, {is_integer, '$2'}, {is_tuple, '$1'}], [{{'$2', '$1'}}]}],
    show(select, lists:sort(do(fun() -> ?DB:select(account, Big) end))),
    show(locks, do(fun() -> {?DB:read_lock_table(account), ?DB:write_lock_table(account)} end)),
    do(fun() -> [?DB:lock(Item, Kind) || Item <- [{table, account}, {record, account, 1}], Kind <- [read, write]] end),
    do(fun() -> [?DB:delete({account, Key}) || Key <- ?DB:all_keys(account), is_tuple(Key)] end).

detailed_events() ->
    {ok, _} = ?DB:subscribe({table, entry, detailed}),
    Changes = [{write, #entry{account = 9, kind = a}}, {write, #entry{account = 9, kind = b}}, {delete, {entry, 9}}],
    [do(fun() -> ?DB:Change(What) end) || {Change, What} <- Changes],
    show(detailed, events(3)),
    {ok, _} = ?DB:unsubscribe({table, entry, detailed}).

dirty() ->
    show(write, {?DB:dirty_write(#account{number = d, owner = eve}), ?DB:dirty_read(account, d), ?DB:dirty_read({account, none})}),
    show(index, {?DB:dirty_index_read(account, eve, owner), ?DB:dirty_match_object(#account{number = '$1', owner = eve, _ = '_'})}),
    show(delete, {?DB:dirty_delete(account, d), lists:sort(?DB:dirty_all_keys(account))}),
    {atomic, ok} = ?DB:create_table(counter, []),
    show(counter, [?DB:dirty_update_counter(counter, c, By) || By <- [-3, 5, -2, -100, 7]]),
    show(counter, {?DB:dirty_read(counter, c), ?DB:delete_table(counter)}).

%% A process that is killed in its transaction loses it and its locks.
killed() ->
    Self = self(),
    Inside = fun() -> ?DB:write(#account{number = 1, owner = mad}), Self ! inside, timer:sleep(infinity) end,
    {Pid, Monitor} = spawn_monitor(fun() -> ?DB:transaction(Inside) end),
    receive inside -> exit(Pid, kill) end,
    receive {'DOWN', Monitor, _, _, Reason} -> show(killed, Reason) end,
    show(owner, do(fun() -> [#account{owner = Owner}] = ?DB:wread({account, 1}), Owner end)).

do(Fun) -> {atomic, Value} = ?DB:transaction(Fun), Value.

%% So many events, without their transactions.
events(0) -> [];
events(N) -> receive {mnesia_table_event, Event} -> [erlang:delete_element(tuple_size(Event), Event) | events(N - 1)] after 2000 -> [none] end.

show(Name, Value) -> io:format("~p ~p~n", [Name, Value]).
