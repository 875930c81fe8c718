%% SPDX-License-Identifier: Apache-2.0

%% @private
%% The options of a client: checked, and with defaults for those that are not given.
-module(tabd_options).

-export([checked/1]).

-export_type([settings/0, address/0]).

-type address() :: {inet:hostname() | inet:ip_address(), inet:port_number()} | {local, string()}.
-type settings() :: #{
    address := address(),
    connections := pos_integer(),
    timeout := timeout(),
    lock_timeout := timeout()
}.

%% @doc Reads a port, a map or a list of options. `bad_option' has the first option that is unknown, that occurs twice, whose value is not
%% valid, or that can't be combined with another one.
-spec checked(term()) -> {ok, settings()} | {error, {bad_option, term()}}.
checked(Port) when is_integer(Port) -> checked([{port, Port}]);
checked(Options) when is_map(Options) -> checked(maps:to_list(Options));
checked(Options) when is_list(Options) -> read(Options, #{});
checked(Options) -> {error, {bad_option, Options}}.

read([{Name, Value} = Option | Rest], Read) when not is_map_key(Name, Read) ->
    case value(Name, Value) of
        {ok, Known} -> read(Rest, Read#{Name => Known});
        error -> {error, {bad_option, Option}}
    end;
read([Option | _], _) ->
    {error, {bad_option, Option}};
read([], #{socket := Path} = Read) ->
    case [Option || Name <- [host, port], #{Name := Value} <- [Read], Option <- [{Name, Value}]] of
        [] -> {ok, settings({local, Path}, Read)};
        [Option | _] -> {error, {bad_option, Option}}
    end;
read([], Read) ->
    {ok, settings({maps:get(host, Read, "127.0.0.1"), maps:get(port, Read, 4000)}, Read)};
read(Improper, _) ->
    {error, {bad_option, Improper}}.

settings(Address, Read) ->
    Defaults = #{connections => 8, timeout => infinity, lock_timeout => infinity},
    maps:put(address, Address, maps:merge(Defaults, maps:without([host, port, socket], Read))).

value(port, Port) when is_integer(Port), Port > 0, Port < 65536 -> {ok, Port};
value(host, Host) when is_binary(Host) -> value(host, binary_to_list(Host));
value(host, Host) when is_atom(Host), Host =/= undefined -> {ok, Host};
value(host, Host) when is_tuple(Host) -> if_true(inet:is_ip_address(Host), Host);
value(host, Host) -> text(Host);
value(socket, Path) when is_binary(Path) -> value(socket, binary_to_list(Path));
value(socket, Path) -> text(Path);
value(connections, Count) when is_integer(Count), Count > 0 -> {ok, Count};
value(Name, infinity) when Name =:= timeout; Name =:= lock_timeout -> {ok, infinity};
value(Name, Time) when Name =:= timeout orelse Name =:= lock_timeout, is_integer(Time), Time > 0 -> {ok, Time};
value(_, _) -> error.

text(Text) -> if_true(Text =/= [] andalso io_lib:char_list(Text), Text).

if_true(true, Value) -> {ok, Value};
if_true(false, _) -> error.
