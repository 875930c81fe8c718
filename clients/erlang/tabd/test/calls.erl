%% SPDX-License-Identifier: Apache-2.0

%% A program of Mnesia: QLC, activities, walks, indexes and dirty calls. It is compiled as it is, and for tabd with the parse transform
%% `tabd_mnesia', and prints the same on both. It prints lists sorted, since Mnesia promises no order of keys.
-module(calls).
-export([main/0]).
-include_lib("stdlib/include/qlc.hrl").
-import(mnesia, [write/1]).
-record(city, {name, country, size}).
-record(visit, {city, day}).

main() ->
    ok = mnesia:start(),
    show(tables, mnesia:create_table(city, [{attributes, record_info(fields, city)}, {index, [country]}])),
    show(tables, mnesia:create_table([{name, visit}, {type, bag}, {attributes, record_info(fields, visit)}])),
    show(tables, {lists:sort(mnesia:system_info(tables)) -- [schema], mnesia:system_info(is_running), mnesia:system_info(running_db_nodes)}),
    Cities = [{oslo, no, 7}, {bergen, no, 3}, {rome, it, 28}, {milan, it, 14}, {paris, fr, 21}],
    mnesia:async_dirty(fun() -> [write(#city{name = N, country = C, size = S}) || {N, C, S} <- Cities] end),
    [mnesia:dirty_write(visit, #visit{city = N, day = D}) || {N, D} <- [{oslo, 1}, {oslo, 2}, {rome, 2}]],
    queries(),
    activities(),
    walks(),
    indexes(),
    changes(),
    dirty(),
    functions(),
    show(info, [mnesia:table_info(city, Item) || Item <- [ram_copies, disc_copies, storage_type, record_name, where_to_write, frag_properties, access_mode]]),
    show(info, {catch mnesia:table_info(city, nothing), catch mnesia:system_info(nothing), catch mnesia:table_info(nothing, all)}),
    show(clear, {mnesia:clear_table(city), mnesia:table_info(city, size), mnesia:table_info(city, index), mnesia:clear_table(nothing)}),
    show(clear, mnesia:transaction(fun() -> mnesia:clear_table(city) end)),
    Errors = [{no_exists, x}, {aborted, {bad_type, x}}, {error, {already_exists, x}}, nested_transaction, no_transaction, {node_not_running, n},
              {system_limit, x}, {badarg, x, y}, other, {other, x}],
    show(errors, [mnesia:error_description(Error) || Error <- Errors]),
    show(stop, {mnesia:stop(), mnesia:system_info(is_running), mnesia:system_info(running_db_nodes)}).

queries() ->
    All = qlc:q([N || #city{name = N} <- mnesia:table(city)]),
    show(all, sorted(fun() -> qlc:e(All) end)),
    show(key, sorted(fun() -> qlc:e(qlc:q([C || #city{name = rome} = C <- mnesia:table(city)])) end)),
    show(index, sorted(fun() -> qlc:e(qlc:q([N || #city{name = N, country = C} <- mnesia:table(city), C =:= no])) end)),
    show(join, sorted(fun() -> qlc:e(qlc:q([{N, D, S} || #city{name = N, size = S} <- mnesia:table(city), #visit{city = V, day = D} <- mnesia:table(visit), V =:= N])) end)),
    show(bag, sorted(fun() -> qlc:e(qlc:q([V || #visit{city = oslo} = V <- mnesia:table(visit)])) end)),
    Big = [{#city{name = '$1', size = '$2', _ = '_'}, [{'>', '$2', 10}], ['$1']}],
    show(traverse, sorted(fun() -> qlc:e(mnesia:table(city, [{traverse, {select, Big}}, {n_objects, 2}])) end)),
    show(locked, do(fun() -> length(qlc:e(mnesia:table(city, [{lock, write}]))) end)),
    show(fold, do(fun() -> qlc:fold(fun(#city{size = S}, Sum) -> S + Sum end, 0, mnesia:table(city)) end)),
    show(dirty, lists:sort(mnesia:activity(async_dirty, fun() -> qlc:e(All) end))),
    show(outside, {catch qlc:e(All), element(1, element(2, catch mnesia:table(city, [{colour, red}])))}),
    show(select, sorted(fun() -> mnesia:select(city, Big, write) end)),
    show(select, do(fun() -> {mnesia:select(city, Big, 10, read), mnesia:select(visit, [{#visit{city = '$1', day = 9}, [], ['$1']}], 10, read)} end), fun chunks/1),
    show(select, do(fun() -> lists:sort(chunked(mnesia:select(city, [{'_', [], ['$_']}], 2, read))) end)),
    show(fold, do(fun() -> {mnesia:foldl(fun sum/2, 0, city, write), mnesia:foldr(fun sum/2, 0, city), mnesia:foldr(fun sum/2, 0, city, read)} end)).

sum(#city{size = Size}, Sum) -> Size + Sum.

chunks({{Found, _}, Empty}) -> {lists:sort(Found), Empty}.

chunked('$end_of_table') -> [];
chunked({Found, Rest}) -> Found ++ chunked(mnesia:select(Rest)).

activities() ->
    Read = fun(Name) -> mnesia:read(city, Name) end,
    Kinds = [transaction, sync_transaction, {transaction, 3}, {sync_transaction, infinity}, async_dirty, sync_dirty, ets],
    show(kinds, [mnesia:activity(Kind, Read, [oslo]) || Kind <- Kinds]),
    show(access, [mnesia:activity(Kind, Read, [oslo], mnesia_frag) || Kind <- Kinds]),
    show(access, {mnesia:activity(transaction, fun() -> 1 end, mnesia_frag), mnesia:activity(async_dirty, fun() -> 2 end, mnesia)}),
    show(bad, {mnesia:activity(other, Read, [oslo]), catch mnesia:activity(async_dirty, no_fun, [])}),
    show(short, {mnesia:async_dirty(Read, [oslo]), mnesia:sync_dirty(Read, [none]), mnesia:ets(fun() -> 3 end), mnesia:ets(Read, [rome])}),
    Ends = [fun() -> throw(x) end, fun() -> exit(x) end, fun() -> mnesia:abort(x) end, fun() -> {aborted, x} end, fun() -> {'EXIT', x} end],
    show(ends, [catch mnesia:sync_dirty(End) || End <- Ends]),
    {'EXIT', {x, Stack}} = (catch mnesia:async_dirty(fun() -> error(x) end)),
    show(nested, {is_list(Stack), mnesia:async_dirty(fun() -> {mnesia:is_transaction(), mnesia:transaction(fun mnesia:is_transaction/0), mnesia:is_transaction()} end)}),
    Write = fun() -> mnesia:write(#city{name = tours}), mnesia:abort(x) end,
    show(inner, do(fun() -> {mnesia:async_dirty(fun mnesia:is_transaction/0), catch mnesia:sync_dirty(Write), mnesia:read(city, tours)} end)),
    show(alone, {mnesia:async_dirty(fun() -> catch Write(), mnesia:read(city, tours) end), mnesia:dirty_delete(city, tours)}),
    show(dirty, mnesia:async_dirty(fun() -> {mnesia:wread({city, oslo}), lists:sort(mnesia:all_keys(city)), length(mnesia:index_read(city, no, country))} end)).

walks() ->
    show(walk, lists:sort(do(fun() -> walk(mnesia:first(city), fun(Key) -> mnesia:next(city, Key) end) end))),
    show(back, lists:sort(do(fun() -> walk(mnesia:last(city), fun(Key) -> mnesia:prev(city, Key) end) end))),
    show(dirty, lists:sort(walk(mnesia:dirty_first(city), fun(Key) -> mnesia:dirty_next(city, Key) end))),
    show(dirty, lists:sort(walk(mnesia:dirty_last(city), fun(Key) -> mnesia:dirty_prev(city, Key) end))),
    {atomic, ok} = mnesia:create_table(empty, []),
    show(empty, {mnesia:dirty_first(empty), mnesia:dirty_last(empty), do(fun() -> {mnesia:first(empty), mnesia:last(empty)} end)}).

walk('$end_of_table', _) -> [];
walk(Key, Next) -> [Key | walk(Next(Key), Next)].

indexes() ->
    Pattern = #city{name = '_', country = no, size = '_'},
    show(index, sorted(fun() -> mnesia:index_match_object(Pattern, country) end)),
    show(index, sorted(fun() -> mnesia:index_match_object(city, Pattern#city{size = 3}, #city.country, read) end)),
    show(index, lists:sort(mnesia:dirty_index_match_object(Pattern, country))),
    show(index, mnesia:dirty_index_match_object(city, Pattern#city{name = '$1', size = 7}, 3)),
    Others = [{#city{name = rome, country = '_', size = '_'}, country}, {#city{name = rome, country = '_', size = 28}, size}, {#city{name = oslo, _ = '_'}, 2}],
    show(index, do(fun() -> [mnesia:index_match_object(Other, Attr) || {Other, Attr} <- Others] end)),
    show(bad, [mnesia:transaction(fun() -> mnesia:index_match_object(Pattern#city{country = Value}, country) end) || Value <- ['_', '$1', {'_', 1}]]),
    show(bad, element(1, mnesia:transaction(fun() -> mnesia:index_match_object(#city{name = '_', country = '_', size = 7}, size) end))),
    show(bad, {mnesia:transaction(fun() -> mnesia:index_match_object(Pattern, colour) end), mnesia:transaction(fun() -> mnesia:select(city, none) end)}).

changes() ->
    show(sticky, do(fun() -> [mnesia:s_write(#visit{city = bonn, day = D}) || D <- [1, 2]] ++ [mnesia:s_delete_object(#visit{city = bonn, day = 1}), mnesia:s_delete({visit, rome})] end)),
    show(after_it, {mnesia:dirty_read(visit, bonn), mnesia:dirty_read(visit, rome)}).

dirty() ->
    show(select, lists:sort(mnesia:dirty_select(city, [{#city{name = '$1', country = it, _ = '_'}, [], ['$1']}]))),
    show(match, {mnesia:dirty_match_object(visit, #visit{city = '$1', day = 1}), mnesia:dirty_delete_object(visit, #visit{city = oslo, day = 1}), mnesia:dirty_read(visit, oslo)}).

%% Functions that are named as values, and applied.
functions() ->
    Read = fun mnesia:dirty_read/2,
    show(values, {Read(city, oslo), lists:map(fun mnesia:dirty_read/1, [{city, rome}]), apply(mnesia, dirty_read, [city, oslo])}),
    show(values, {apply(fun mnesia:dirty_read/2, [city, none]), rpc:call(node(), mnesia, dirty_read, [city, oslo])}).

do(Fun) -> {atomic, Value} = mnesia:transaction(Fun), Value.

sorted(Fun) -> lists:sort(do(Fun)).

show(Name, Value, Change) -> show(Name, Change(Value)).

show(Name, Value) -> io:format("~p ~p~n", [Name, Value]).
