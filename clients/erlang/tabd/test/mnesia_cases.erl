%% SPDX-License-Identifier: Apache-2.0

%% Programs of Mnesia that are compiled for tabd by the parse transform: one of this folder, and OTP's examples if they are installed.
-module(mnesia_cases).

-export([cases/0]).

-import(servers, [same/2, serve/2, kill/1]).

cases() ->
    [
        {"a program is moved by the parse transform", fun calls/0},
        {"the parse transform warns of what is not there", fun warnings/0},
        {"calls without a counterpart are found", fun check/0},
        {"OTP's company, unedited", fun company/0},
        {"OTP's mnesia_tpcb, with a patch", fun tpcb/0}
    ].

%% What the fun gives for a folder of its own and a server's port.
room(Name, Do) ->
    Room = filename:join(get(ebin), Name),
    ok = filelib:ensure_path(Room),
    {Port, Server} = serve(32, ["--forever"]),
    Do(Room, Port),
    kill(Server).

-define(MOVED, {parse_transform, tabd_mnesia}).

compiled(File, Room, Options) ->
    {ok, _, Warnings} = compile:file(File, [{outdir, Room}, {i, filename:dirname(File)}, return | Options]),
    [Warning || {_, Told} <- Warnings, {_, tabd_mnesia, Warning} <- Told].

%% What a program prints in a node of its own.
printed(Rooms, Start, Run) ->
    Paths = [[" -pa '", Room, "'"] || Room <- [get(ebin) | Rooms]],
    Words = ["erl -noshell -kernel logger_level none -mnesia dir '\"", hd(Rooms), "\"'", Paths, " -eval '", Start, ", ", Run, ", halt(0).' 2>&1"],
    os:cmd(lists:flatten(Words)).

calls() ->
    {ok, Wanted} = file:read_file(filename:join(get(here), "calls.out")),
    room("calls", fun(Room, Port) ->
        same(compiled(filename:join(get(here), "calls.erl"), Room, [?MOVED]), []),
        Start = io_lib:format("application:set_env(tabd, port, ~b)", [Port]),
        same(list_to_binary(printed([Room], Start, "calls:main()")), Wanted)
    end).

-define(CALLS,
    "-module(moved).\n-export([a/1, b/0]).\n-import(mnesia, [dump_log/0]).\n"
    "a(T) -> mnesia:dirty_slot(T, 1), mnesia:dirty_read(T, 1),\n"
    " [fun mnesia:info/0, fun mnesia:dirty_read/2, {mnesia, note}].\n"
    "b() -> apply(mnesia, backup, [x]), spawn(mnesia, stop, []), dump_log().\n"
).

source(Room) ->
    File = filename:join(Room, "moved.erl"),
    ok = file:write_file(File, ?CALLS),
    File.

warnings() ->
    Room = filename:join(get(ebin), "warnings"),
    ok = filelib:ensure_path(Room),
    File = source(Room),
    same(lists:sort(compiled(File, Room, [?MOVED])), [{backup, 1}, {dirty_slot, 2}, {dump_log, 0}, {info, 0}]),
    same(lists:flatten(tabd_mnesia:format_error({info, 0})), "tabd has no info/0: the call of mnesia stays"),
    Beam = filename:join(Room, "moved.beam"),
    {ok, {moved, [{imports, Imports}]}} = beam_lib:chunks(Beam, [imports]),
    same(lists:sort([Call || {Module, _, _} = Call <- Imports, Module =:= tabd orelse Module =:= mnesia]),
         [{mnesia, backup, 1}, {mnesia, dirty_slot, 2}, {mnesia, dump_log, 0}, {tabd, dirty_read, 2}]),
    same(tabd:check(Beam), [{backup, 1}, {dirty_slot, 2}, {dump_log, 0}, {info, 0}]).

check() ->
    Room = filename:join(get(ebin), "check"),
    ok = filelib:ensure_path(Room),
    same(compiled(source(Room), Room, []), []),
    Missing = [{backup, 1}, {dirty_slot, 2}, {dump_log, 0}, {info, 0}],
    same(tabd:check(filename:join(Room, "moved.beam")), Missing),
    true = code:add_patha(Room),
    same([tabd:check(moved), tabd:check(lists), tabd:check(?MODULE)], [Missing, [], []]),
    same(tabd:check(no_such_module), {error, {no_file, no_such_module}}),
    {error, _} = tabd:check(filename:join(Room, "none.beam")).

example(Name) ->
    case code:lib_dir(mnesia) of
        {error, _} -> none;
        Folder -> case filelib:wildcard(filename:join([Folder, "examples", Name])) of [File] -> File; [] -> none end
    end.

%% The same calls of it print the same on both, in turn.
company() ->
    case example("company.erl") of
        none -> {left_out, "Mnesia's examples are not installed (Debian's erlang-examples)"};
        File -> room("company", fun(Room, Port) -> company(File, Room, Port) end)
    end.

company(File, Room, Port) ->
    On = filename:join(Room, "mnesia"),
    ok = filelib:ensure_path(On),
    same(compiled(File, On, []), []),
    same(compiled(File, Room, [?MOVED]), [{add_table_copy, 3} || _ <- [1, 2, 3]]),
    compiled(filename:join(get(here), "company_calls.erl"), Room, []),
    Wanted = printed([Room, On], "ok = mnesia:start()", "company_calls:main()"),
    same(printed([Room], io_lib:format("ok = tabd:start(~b)", [Port]), "company_calls:main()"), Wanted),
    same(string:find(Wanted, "after_all") =/= nomatch, true).

tpcb() ->
    case {example("mnesia_tpcb.erl"), code:lib_dir(common_test), os:find_executable("patch")} of
        {none, _, _} -> {left_out, "Mnesia's examples are not installed (Debian's erlang-examples)"};
        {_, {error, _}, _} -> {left_out, "its header is not installed (Debian's erlang-common-test)"};
        {_, _, false} -> {left_out, "patch is not installed"};
        {File, _, _} -> room("tpcb", fun(Room, Port) -> tpcb(File, Room, Port) end)
    end.

%% Numbers of over 128 bits in its tables are replaced by the patch; it verifies its balances itself, and so does this case.
tpcb(File, Room, Port) ->
    Patched = filename:join(Room, "mnesia_tpcb.erl"),
    Patch = io_lib:format("patch -s -o '~s' '~s' '~s'", [Patched, File, filename:join(get(here), "mnesia_tpcb.patch")]),
    same(os:cmd(lists:flatten(Patch)), ""),
    same(lists:usort(compiled(Patched, Room, [?MOVED])), [{create_schema, 1}, {delete_schema, 1}, {lkill, 0}]),
    Words = "[{use_running_mnesia, true}, {n_branches, 2}, {n_accounts_per_branch, 50}, {branch_filler, x}, {account_filler, x}, {teller_filler, x},"
            " {n_drivers_per_node, 3}, {stop_after, 2000}, {report_interval, 1000}]",
    Run = ["mnesia_tpcb:init(", Words, "), {ok, _} = mnesia_tpcb:run(", Words, "), ok = mnesia_tpcb:verify_tabs(), io:format(\"verified\")"],
    Told = printed([Room], io_lib:format("ok = tabd:start([{port, ~b}, {connections, 16}])", [Port]), Run),
    same({lists:suffix("verified", Told), Told}, {true, Told}),
    ok = tabd:start(Port),
    Sum = fun(Tab, Position) -> fun() -> tabd:foldl(fun(Record, Sum) -> Sum + element(Position, Record) end, 0, Tab) end end,
    Sums = [servers:do(Sum(Tab, Position)) || {Tab, Position} <- [{branch, 3}, {teller, 4}, {account, 4}, {history, 7}]],
    same(length(lists:usort(Sums)), 1),
    same(tabd:table_info(history, size) > 0, true).
