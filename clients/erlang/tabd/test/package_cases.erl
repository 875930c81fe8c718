%% SPDX-License-Identifier: Apache-2.0

%% The client as others get it: by README's line, from a git repository.
-module(package_cases).

-export([cases/0]).

-import(servers, [same/2]).

cases() ->
    [{"rebar3 takes README's line", fun rebar3/0}].

rebar3() ->
    case [Tool || Tool <- ["rebar3", "git"], os:find_executable(Tool) =:= false] of
        [] -> built(filename:join(get(ebin), "package"));
        Missing -> {left_out, hd(Missing) ++ " is not installed"}
    end.

built(Room) ->
    Client = filename:dirname(get(here)),
    {ok, Readme} = file:read_file(filename:join(Client, "README.md")),
    {match, [Line]} = re:run(Readme, <<"%% rebar.config: (.*)">>, [{capture, all_but_first, list}]),
    Project = filename:join(Room, "project"),
    Repository = filename:join(Room, "repository"),
    Folder = filename:join(Repository, "clients/erlang"),
    [ok = filelib:ensure_path(Path) || Path <- [Folder, filename:join(Project, "src")]],
    sh("cp -r '~s' '~s/'", [Client, Folder]),
    sh("cd '~s' && git init -q -b main && git add . && git -c user.name=n -c user.email=e commit -qm all", [Repository]),
    ok = file:write_file(filename:join(Project, "rebar.config"), string:replace(Line, "\"URL\"", "\"file://" ++ Repository ++ "\"")),
    App = "{application, project, [{description, \"p\"}, {vsn, \"1\"}, {applications, [kernel, stdlib, tabd]}]}.",
    ok = file:write_file(filename:join(Project, "src/project.app.src"), App),
    Built = sh("cd '~s' && HOME='~s' rebar3 compile 2>&1", [Project, Room]),
    [Ebin] = filelib:wildcard(filename:join(Project, "_build/default/lib/tabd/**/ebin")),
    Start = "cd '~s' && erl -noshell -pa '~s' -eval 'ok = application:start(tabd), io:format(\"~~p\", [tabd:start(none)]), halt(0).' 2>&1",
    same({sh(Start, [Project, Ebin]), Built}, {"{error,{bad_option,none}}", Built}).

sh(Format, Args) -> os:cmd(lists:flatten(io_lib:format(Format, Args))).
