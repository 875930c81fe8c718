#!/usr/bin/env escript
%%! -kernel logger_level none
%% SPDX-License-Identifier: Apache-2.0
%% Tests of the Erlang client: run.escript PROGRAM [CASE], PROGRAM being the built tabd. They need no more than Debian's erlang-base; a case
%% that needs more is skipped if that is not installed, and a line says so.
%%
%% Each `*_cases.erl' runs in a node of its own, concurrently. A line reports each case that fails; the last line is
%% `N passed, M failed', and the status is 1 if one failed. CASE is a part of the names of the cases that run.
-mode(compile).

main([Program | Part]) ->
    Ebin = compiled(),
    Modules = [list_to_atom(filename:basename(File, ".erl")) || File <- filelib:wildcard(filename:join(here(), "*_cases.erl"))],
    Nodes = [started(Module, Ebin, [filename:absname(Program), here() | Part]) || Module <- Modules],
    {Passed, Failed} = lists:unzip([ended(Node) || Node <- Nodes]),
    _ = file:del_dir_r(Ebin),
    io:format("~b passed, ~b failed~n", [lists:sum(Passed), lists:sum(Failed)]),
    halt(min(lists:sum(Failed), 1));
main(_) ->
    io:format("usage: run.escript PROGRAM [CASE]~n"),
    halt(2).

here() -> filename:dirname(filename:absname(escript:script_name())).

compiled() ->
    Ebin = string:trim(os:cmd("mktemp -d")),
    Options = [{outdir, Ebin}, {d, 'DB', tabd}, return_errors, report, warnings_as_errors],
    Sources = [filename:join([here(), "..", "src", "*.erl"])] ++ [filename:join(here(), Name) || Name <- ["bank.erl", "servers.erl", "*_cases.erl"]],
    [{ok, _} = compile:file(File, Options) || Files <- Sources, File <- filelib:wildcard(Files)],
    true = code:add_patha(Ebin),
    Ebin.

started(Module, Ebin, Words) ->
    Run = io_lib:format("servers:main(~s, ~p)", [Module, [Ebin | Words]]),
    Args = ["-noshell", "-kernel", "logger_level", "none", "-pa", Ebin, "-eval", lists:flatten(Run)],
    Node = open_port({spawn_executable, os:find_executable("erl")}, [{args, Args}, {line, 4000}, stderr_to_stdout, exit_status]),
    {Module, Node}.

%% What a node says is printed, but its last line, which has the counts.
ended({Module, Node}) ->
    receive
        {Node, {data, {eol, "counted " ++ Counts}}} ->
            {ok, [Passed, Failed], _} = io_lib:fread("~d ~d", Counts),
            {Passed, Failed};
        {Node, {data, {_, Line}}} ->
            io:format("~ts~n", [Line]),
            ended({Module, Node});
        {Node, {exit_status, Status}} ->
            io:format("~s: its node ended, with status ~b~n", [Module, Status]),
            {0, 1}
    end.
