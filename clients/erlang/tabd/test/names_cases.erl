%% SPDX-License-Identifier: Apache-2.0

%% What docs/MNESIA.md says of each name of Mnesia is what the client has, with a type.
-module(names_cases).

-export([cases/0]).

-import(servers, [same/2]).

%% The Mnesia of which the page speaks.
-define(VERSION, "4.21.3").

cases() ->
    [
        {"docs/MNESIA.md has each name of Mnesia", fun names/0},
        {"each exported function has a type", fun types/0}
    ].

types() ->
    Sources = filelib:wildcard(filename:join([get(here), "..", "src", "*.erl"])),
    same(length(Sources) > 5, true),
    same([{filename:basename(Source), Function} || Source <- Sources, Function <- untyped(Source)], []).

untyped(Source) ->
    {ok, Forms} = epp:parse_file(Source, []),
    lists:append([Functions || {attribute, _, export, Functions} <- Forms]) -- [Function || {attribute, _, spec, {Function, _}} <- Forms].

names() ->
    _ = application:load(mnesia),
    case application:get_key(mnesia, vsn) of
        {ok, ?VERSION} -> compared();
        {ok, Other} -> {left_out, "Mnesia " ++ Other ++ " is installed, and the page is of " ++ ?VERSION};
        undefined -> {left_out, "Mnesia is not installed"}
    end.

compared() ->
    Script = filename:join(get(here), "names.escript"),
    Port = open_port({spawn_executable, os:find_executable("escript")}, [{args, [Script, get(ebin)]}, exit_status, stderr_to_stdout, binary]),
    {Status, Table} = read(Port, <<>>),
    same({Status, Table}, {0, Table}),
    {ok, Page} = file:read_file(filename:join([get(here), "..", "..", "..", "..", "docs", "MNESIA.md"])),
    [_, Rest] = binary:split(Page, <<"<!-- clients/erlang/tabd/test/names.escript -->\n">>),
    [Found, _] = binary:split(Rest, <<"<!-- end -->">>),
    same(Found, Table).

read(Port, Text) ->
    receive
        {Port, {data, More}} -> read(Port, <<Text/binary, More/binary>>);
        {Port, {exit_status, Status}} -> {Status, Text}
    end.
