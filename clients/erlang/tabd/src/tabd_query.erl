%% SPDX-License-Identifier: Apache-2.0

%% @private
%% What the server has no operation for: match variables, match specifications, walks and QLC. Records and keys come over the connection, and
%% are matched here.
%%
%% `Ask' is the function that asks the server: in the caller's transaction or dirty activity, or in a one-shot.
-module(tabd_query).

-export([match/2, index_match/4, select/3, chunk/2, records/2, table/2]).
-export([first/2, last/2, next/3, prev/3]).

-export_type([ask/0, chunk/0]).

-type ask() :: fun((term()) -> term()).
-type chunk() :: {[term()], chunk_rest()} | '$end_of_table'.
-type chunk_rest() :: {tabd_select, pos_integer(), [term()]} | '$end_of_table'.

%% @doc The records that match. A match variable, as `'$1'', matches any term, and the same one at each occurrence; a map matches each map
%% that has its pairs. The server knows neither: the request has `'_'' instead.
-spec match(ask(), tuple()) -> [tuple()].
match(Ask, Pattern) ->
    Wide = widened(Pattern),
    matching(Pattern, Wide, Ask({match_object, Wide})).

%% @doc The records that match: of the pattern's key, or by the index of an attribute whose value is bound in the pattern.
-spec index_match(ask(), atom(), tuple(), atom() | pos_integer()) -> [tuple()].
index_match(Ask, Tab, Pattern, Attr) ->
    Position = position(Tab, Attr),
    Position =< tuple_size(Pattern) orelse tabd_transaction:abort({bad_type, Tab, Attr}),
    Value = element(Position, Pattern),
    case is_open(element(2, Pattern)) of
        true ->
            is_open(Value) andalso tabd_transaction:abort({bad_type, Tab, Attr, Value}),
            ets:match_spec_run(Ask({index_read, Tab, Value, Attr}), ets:match_spec_compile([{Pattern, [], ['$_']}]));
        false ->
            match(Ask, Pattern)
    end.

%% Whether other terms than one fit.
is_open(Term) when is_atom(Term) -> Term =:= '_' orelse is_variable(Term);
is_open(Term) when is_tuple(Term) -> lists:any(fun is_open/1, tuple_to_list(Term));
is_open([Head | Tail]) -> is_open(Head) orelse is_open(Tail);
is_open(Term) -> is_map(Term).

position(_, Position) when is_integer(Position), Position > 0 ->
    Position;
position(Tab, Attr) ->
    Places = lists:zip(tabd:table_info(Tab, attributes), lists:seq(2, tabd:table_info(Tab, arity))),
    case lists:keyfind(Attr, 1, Places) of
        {Attr, Position} -> Position;
        false -> tabd_transaction:abort({bad_type, Attr})
    end.

%% The pattern with `_' at its match variables and maps.
widened(Term) when is_atom(Term) ->
    case is_variable(Term) of
        true -> '_';
        false -> Term
    end;
widened(Term) when is_tuple(Term) -> list_to_tuple(widened(tuple_to_list(Term)));
widened([Head | Tail]) -> [widened(Head) | widened(Tail)];
widened(Term) when is_map(Term) -> '_';
widened(Term) -> Term.

is_variable(Atom) ->
    case atom_to_list(Atom) of
        [$$, Digit | Digits] -> lists:all(fun(D) -> D >= $0 andalso D =< $9 end, [Digit | Digits]);
        _ -> false
    end.

matching(Pattern, Pattern, Records) -> Records;
matching(Pattern, _, Records) -> ets:match_spec_run(Records, ets:match_spec_compile([{Pattern, [], ['$_']}])).

%% @doc What a match specification makes of all records of the table.
-spec select(ask(), atom(), ets:match_spec()) -> [term()].
select(Ask, Tab, Spec) ->
    try ets:match_spec_compile(Spec) of
        Compiled -> ets:match_spec_run(records(Ask, Tab), Compiled)
    catch
        error:badarg -> tabd_transaction:abort({badarg, Tab, Spec})
    end.

%% @doc So many of them, and what gives the next.
-spec chunk(pos_integer(), [term()]) -> chunk().
chunk(_, []) ->
    '$end_of_table';
chunk(Count, Found) when length(Found) > Count ->
    {Some, Rest} = lists:split(Count, Found),
    {Some, {tabd_select, Count, Rest}};
chunk(_, Found) ->
    {Found, '$end_of_table'}.

%% @doc All records of the table, after a lock of the table.
-spec records(ask(), atom()) -> [tuple()].
records(Ask, Tab) ->
    ok = Ask({read_lock_table, Tab}),
    Ask({match_object, tabd:table_info(Tab, wild_pattern)}).

%% @doc A table for QLC: keys and values that have an index are looked up, and other queries take all records. Options that are no others of
%% Mnesia's are `badarg'.
-spec table(atom(), [{lock, read | write} | {traverse, select | {select, ets:match_spec()}} | {n_objects, term()}]) -> qlc:query_handle().
table(Tab, Options) ->
    Known = [Option || {Name, _} = Option <- Options, lists:member(Name, [lock, traverse, n_objects])],
    Lock = proplists:get_value(lock, Known, read),
    is_atom(Tab) andalso Known =:= Options andalso lists:member(Lock, [read, write]) orelse error(badarg),
    case proplists:get_value(traverse, Known, select) of
        select -> looked_up(Tab, Lock);
        {select, Spec} -> qlc:table(fun() -> tabd:select(Tab, Spec, Lock) end, []);
        _ -> error(badarg)
    end.

looked_up(Tab, Lock) ->
    Info = fun
        (keypos) -> 2;
        (indices) -> tabd:table_info(Tab, index);
        (num_of_objects) -> tabd:table_info(Tab, size);
        (is_unique_objects) -> true;
        (_) -> undefined
    end,
    Read = fun
        (2, Keys) -> lists:append([tabd:read(Tab, Key, Lock) || Key <- Keys]);
        (Position, Values) -> lists:append([tabd:index_read(Tab, Value, Position) || Value <- Values])
    end,
    Format = fun
        ({lookup, Position, Values}) -> io_lib:format("lists:append([tabd:index_read(~w, V, ~w) || V <- ~w])", [Tab, Position, Values]);
        (_) -> io_lib:format("tabd:table(~w, [{lock, ~w}])", [Tab, Lock])
    end,
    Traverse = fun(Spec) -> tabd:select(Tab, Spec, Lock) end,
    qlc:table(Traverse, [{info_fun, Info}, {lookup_fun, Read}, {format_fun, Format}, {key_equality, '=:='}]).

%%% A walk over the keys, in the order of terms

-spec first(ask(), atom()) -> term().
first(Ask, Tab) -> least(Ask({all_keys, Tab})).

-spec last(ask(), atom()) -> term().
last(Ask, Tab) -> greatest(Ask({all_keys, Tab})).

%% @doc The least key above one, which need not be there.
-spec next(ask(), atom(), term()) -> term().
next(Ask, Tab, Key) -> least([It || It <- Ask({all_keys, Tab}), It > Key]).

-spec prev(ask(), atom(), term()) -> term().
prev(Ask, Tab, Key) -> greatest([It || It <- Ask({all_keys, Tab}), It < Key]).

least([]) -> '$end_of_table';
least(Keys) -> lists:min(Keys).

greatest([]) -> '$end_of_table';
greatest(Keys) -> lists:max(Keys).
