%% The work of `gateway load NUMBER` by Erlang/OTP and a linked-in echo driver: -extra NUMBER RUNS. Prints the median of so many runs, from the
%% first command to the last data, in microseconds.
-module(load).
-export([main/0]).

commands(Number) -> commands(Number, 0, []).
commands(_, 8, Done) -> lists:reverse(Done);
commands(X, Process, Done) ->
    {Y, Commands} = commands_of(X, Process, 2000, []),
    commands(Y, Process + 1, [Commands | Done]).

commands_of(X, _, 0, Done) -> {X, lists:reverse(Done)};
commands_of(X0, Process, Left, Done) ->
    X = (X0 * 6364136223846793005 + 1442695040888963407) band 16#ffffffffffffffff,
    Command = {1 + (X bsr 33) rem 4, binary:copy(<<(97 + Process)>>, 1 + (X bsr 40) rem 64)},
    commands_of(X, Process, Left - 1, [Command | Done]).

take(_, 0, Bytes) -> Bytes;
take(Port, Left, Bytes) -> receive {Port, {data, Data}} -> take(Port, Left - 1, Bytes + byte_size(Data)) end.

process(Main, At, Commands, Wanted) ->
    Port = case At < 5 of true -> open_port({spawn, "echo"}, [binary]); false -> none end,
    Main ! {port, At, Port},
    receive {go, Ports} -> ok end,
    [port_command(element(To, Ports), Data) || {To, Data} <- Commands],
    Bytes = case At < 5 of true -> take(Port, Wanted, 0); false -> 0 end,
    Main ! {done, At, Bytes},
    Port =:= none orelse port_close(Port).

once(All, Counts) ->
    Main = self(),
    Processes = [spawn_link(fun() -> process(Main, At, Commands, element(At, Counts)) end) || {At, Commands} <- lists:zip(lists:seq(1, 8), All)],
    Opened = lists:sort([receive {port, At, Port} -> {At, Port} end || _ <- Processes]),
    Ports = list_to_tuple([Port || {At, Port} <- Opened, At < 5]),
    Begun = erlang:monotonic_time(microsecond),
    [Process ! {go, Ports} || Process <- Processes],
    Sizes = lists:sort([receive {done, At, Bytes} -> {At, Bytes} end || _ <- Processes]),
    {erlang:monotonic_time(microsecond) - Begun, [Bytes || {At, Bytes} <- Sizes, At < 5]}.

main() ->
    [Number, Runs] = [list_to_integer(Word) || Word <- init:get_plain_arguments()],
    ok = erl_ddll:load_driver(".", "echo"),
    All = commands(Number),
    Counts = list_to_tuple([length([To || Commands <- All, {To, _} <- Commands, To =:= At]) || At <- [1, 2, 3, 4]] ++ [0, 0, 0, 0]),
    Wanted = [lists:sum([byte_size(Data) || Commands <- All, {To, Data} <- Commands, To =:= At]) || At <- [1, 2, 3, 4]],
    Times = lists:sort([begin {Time, Wanted} = once(All, Counts), Time end || _ <- lists:seq(1, Runs)]),
    io:format("~w~n", [lists:nth((Runs + 1) div 2, Times)]),
    halt(0).
