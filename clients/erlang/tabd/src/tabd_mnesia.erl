%% SPDX-License-Identifier: Apache-2.0

%% @doc A parse transform, by which a program of Mnesia calls tabd: `erlc "+{parse_transform, tabd_mnesia}" program.erl'.
%%
%% Each call of `mnesia' that `tabd' has is one of `tabd', also `fun mnesia:F/A', an import, and `mnesia, F, [..]' among the arguments of another
%% call, as of `apply/3', `spawn/3' or `rpc:call/4'. One that `tabd' does not have stays, with a warning at its line.
-module(tabd_mnesia).

-export([parse_transform/2, format_error/1, missing/1]).

%% @doc The module's forms, changed.
-spec parse_transform([erl_parse:abstract_form() | erl_parse:form_info()], [term()]) ->
    [erl_parse:abstract_form() | erl_parse:form_info()] | {warning, [erl_parse:abstract_form() | erl_parse:form_info()], [term()]}.
parse_transform(Forms, _) ->
    {Changed, {_, Left}} = lists:mapfoldl(fun form/2, {"", []}, Forms),
    case Left of
        [] -> Changed;
        _ -> {warning, Changed, [{File, [{Place, ?MODULE, Call}]} || {File, Place, Call} <- lists:reverse(Left)]}
    end.

%% @doc The text of a warning.
-spec format_error({atom(), arity()}) -> iolist().
format_error({Name, Arity}) -> io_lib:format("tabd has no ~tw/~w: the call of mnesia stays", [Name, Arity]).

form({attribute, _, file, {File, _}} = Form, {_, Left}) ->
    {Form, {File, Left}};
form({attribute, Place, import, {mnesia, Functions}}, Told) ->
    case [Function || Function <- Functions, not has(Function)] of
        [] -> {{attribute, Place, import, {tabd, Functions}}, Told};
        Others -> {{attribute, Place, import, {mnesia, Functions}}, lists:foldl(fun(It, Next) -> left(Place, It, Next) end, Told, Others)}
    end;
form(Form, Told) ->
    walk(Form, Told).

left(Place, Function, {File, Left}) -> {File, [{File, Place, Function} | Left]}.

walk({call, Place, {remote, At, {atom, AtModule, mnesia}, {atom, AtName, Name}}, Args}, Told) ->
    {NewArgs, Next} = walk(Args, Told),
    {Module, Last} = module(Place, {Name, length(Args)}, Next),
    {{call, Place, {remote, At, {atom, AtModule, Module}, {atom, AtName, Name}}, NewArgs}, Last};
walk({call, Place, Called, Args}, Told) ->
    {NewCalled, Next} = walk(Called, Told),
    {NewArgs, Last} = arguments(Args, Next),
    {{call, Place, NewCalled, NewArgs}, Last};
walk({'fun', Place, {function, {atom, AtModule, mnesia}, {atom, _, Name} = AtName, {integer, _, Arity} = AtArity}}, Told) ->
    {Module, Next} = module(Place, {Name, Arity}, Told),
    {{'fun', Place, {function, {atom, AtModule, Module}, AtName, AtArity}}, Next};
walk(Form, Told) when is_tuple(Form) ->
    {Parts, Next} = walk(tuple_to_list(Form), Told),
    {list_to_tuple(Parts), Next};
walk([Head | Tail], Told) ->
    {NewHead, Next} = walk(Head, Told),
    {NewTail, Last} = walk(Tail, Next),
    {[NewHead | NewTail], Last};
walk(Other, Told) ->
    {Other, Told}.

%% A module, a function and its arguments as a list, one after the other.
arguments([{atom, At, mnesia}, {atom, _, Name} = Function, {Kind, _, _, _} = List | Rest], Told) when Kind =:= cons ->
    applied(At, Name, Function, List, Rest, Told);
arguments([{atom, At, mnesia}, {atom, _, Name} = Function, {nil, _} = List | Rest], Told) ->
    applied(At, Name, Function, List, Rest, Told);
arguments([Argument | Rest], Told) ->
    {New, Next} = walk(Argument, Told),
    {NewRest, Last} = arguments(Rest, Next),
    {[New | NewRest], Last};
arguments([], Told) ->
    {[], Told}.

applied(At, Name, Function, List, Rest, Told) ->
    {NewList, Next} = walk(List, Told),
    {NewRest, Last} = arguments(Rest, Next),
    {Module, End} = module(At, {Name, count(List)}, Last),
    {[{atom, At, Module}, Function, NewList | NewRest], End}.

count({cons, _, _, Tail}) -> 1 + count(Tail);
count(_) -> 0.

module(Place, Function, Told) ->
    case has(Function) of
        true -> {tabd, Told};
        false -> {mnesia, left(Place, Function, Told)}
    end.

has(Function) -> lists:member(Function, tabd:module_info(exports)).

%% @doc As `tabd:check/1'.
-spec missing(module() | file:filename()) -> [{atom(), arity()}] | {error, term()}.
missing(Module) when is_atom(Module) ->
    case code:which(Module) of
        Path when is_list(Path), Path =/= [] -> missing(Path);
        _ -> {error, {no_file, Module}}
    end;
missing(Path) ->
    case beam_lib:chunks(Path, [imports, "LitT"], [allow_missing_chunks]) of
        {ok, {_, [{imports, Imports}, {"LitT", Literals}]}} ->
            Calls = [{Name, Arity} || {mnesia, Name, Arity} <- Imports] ++ functions(literals(Literals)),
            [Call || Call <- lists:usort(Calls), not has(Call)];
        {error, beam_lib, Reason} ->
            {error, Reason}
    end.

%% The terms of a module's table of literals, in which a `fun mnesia:F/A' is.
literals(missing_chunk) ->
    [];
literals(<<_:32, Packed/binary>>) ->
    <<Count:32, Table/binary>> = zlib:uncompress(Packed),
    literals(Count, Table).

literals(0, _) -> [];
literals(Count, <<Size:32, Literal:Size/binary, Rest/binary>>) -> [binary_to_term(Literal) | literals(Count - 1, Rest)].

functions(Fun) when is_function(Fun) ->
    case [element(2, erlang:fun_info(Fun, Item)) || Item <- [type, module, name, arity]] of
        [external, mnesia, Name, Arity] -> [{Name, Arity}];
        _ -> []
    end;
functions([Head | Tail]) -> functions(Head) ++ functions(Tail);
functions(Tuple) when is_tuple(Tuple) -> functions(tuple_to_list(Tuple));
functions(Map) when is_map(Map) -> functions(maps:to_list(Map));
functions(_) -> [].
