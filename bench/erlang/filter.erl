%% A file through `cat` by Erlang/OTP: -extra MODE FILE RUNS, where MODE is stream or line. Prints the median of so many runs, from the start of the
%% program until what came is written to a file that wasn't there, in microseconds.
-module(filter).
-export([main/0]).

mode("stream") -> [stream];
mode("line") -> [{line, 80}].

pieces(Bytes) when byte_size(Bytes) =< 65536 -> [Bytes];
pieces(<<Piece:65536/binary, Rest/binary>>) -> [Piece | pieces(Rest)].

take(_, 0, Came) -> lists:reverse(Came);
take(Port, Left, Came) ->
    receive
        {Port, {data, {eol, Data}}} -> take(Port, Left - byte_size(Data) - 1, [<<Data/binary, 10>> | Came]);
        {Port, {data, {noeol, Data}}} -> take(Port, Left - byte_size(Data), [Data | Came]);
        {Port, {data, Data}} -> take(Port, Left - byte_size(Data), [Data | Came])
    end.

once(Mode, Pieces, Size) ->
    Main = self(),
    _ = file:delete("erlang_out.txt"),
    spawn_link(fun() ->
        Begun = erlang:monotonic_time(microsecond),
        Port = open_port({spawn, "cat"}, mode(Mode) ++ [binary]),
        [port_command(Port, Piece) || Piece <- Pieces],
        ok = file:write_file("erlang_out.txt", take(Port, Size, [])),
        Ended = erlang:monotonic_time(microsecond),
        port_close(Port),
        Main ! {time, Ended - Begun}
    end),
    receive {time, Time} -> Time end.

main() ->
    [Mode, File, Runs] = init:get_plain_arguments(),
    {ok, Bytes} = file:read_file(File),
    Pieces = pieces(Bytes),
    Times = lists:sort([once(Mode, Pieces, byte_size(Bytes)) || _ <- lists:seq(1, list_to_integer(Runs))]),
    {ok, Bytes} = file:read_file("erlang_out.txt"),
    io:format("~w~n", [lists:nth((length(Times) + 1) div 2, Times)]),
    halt(0).
