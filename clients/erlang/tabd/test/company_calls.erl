%% SPDX-License-Identifier: Apache-2.0

%% Calls what OTP's example `company' exports, and prints what it gives, lists sorted.
-module(company_calls).
-export([main/0]).

main() ->
    company:init(),
    show(sync, company:sync()),
    show(fill, company:fill_tables()),
    Queries = [females, all_females, female_bosses, find_male_on_second_floor],
    [show(Query, company:Query()) || Query <- Queries],
    show(raise_females, {company:raise_females(33), company:females()}),
    show(raise, {company:raise(104732, 5), company:raise(117716, -1)}),
    show(bad_raise, company:bad_raise(115018, 2)),
    {aborted, {{badmatch, []}, _}} = company:raise(1, 1),
    show(get_emps, [company:get_emps(Salary, Dept) || Salary <- [0, 2, 40], Dept <- ['B/SF', 'B/SFR', none]]),
    show(get_emps2, [company:get_emps2(Salary, Dept) || Salary <- [0, 2], Dept <- ['B/SF', 'B/SFR']]),
    Me = {employee, 104800, "Holst Nils", 4, male, 99600, {221, 16}},
    show(insert_emp, company:insert_emp(Me, 'B/SFR', [erlang, otp])),
    show(get_emps, company:get_emps(3, 'B/SFR')),
    show(remove_proj, [company:remove_proj(Project) || Project <- [otp, none]]),
    show(bosses, company:female_bosses()),
    show(dotimes, company:dotimes(10, fun() -> company:insert_emp(Me, 'B/DUR', [erlang, mnesia, otp]) end)),
    show(after_all, company:get_emps(0, 'B/SFR')).

show(Name, Value) -> io:format("~p ~p~n", [Name, sorted(Value)]).

sorted(List) when is_list(List) ->
    case io_lib:char_list(List) of
        true -> List;
        false -> lists:sort([sorted(Value) || Value <- List])
    end;
sorted(Tuple) when is_tuple(Tuple) -> list_to_tuple([sorted(Value) || Value <- tuple_to_list(Tuple)]);
sorted(Value) -> Value.
