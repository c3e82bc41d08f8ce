#!/usr/bin/env escript
%% store.escript make | put KEY.. | list: a table of Mnesia on the disk. `put` prints `stored KEY` once the transaction has committed and the log is synced.
main([What | Keys]) ->
    application:set_env(mnesia, dir, "."),
    What =/= "make" orelse (ok = mnesia:create_schema([node()])),
    ok = mnesia:start(),
    What =/= "make" orelse ({atomic, ok} = mnesia:create_table(t, [{disc_copies, [node()]}, {attributes, [key, value]}])),
    ok = mnesia:wait_for_tables([t], 10000),
    What =/= "list" orelse [io:format("~s~n", [Key]) || Key <- lists:sort(mnesia:dirty_all_keys(t))],
    [put_key(Key) || Key <- Keys],
    What =/= "make" orelse mnesia:stop(),
    halt(0, [{flush, true}]).

put_key(Key) ->
    Write = fun() -> mnesia:write({t, Key, lists:duplicate(3000, $x)}) end,
    case {mnesia:sync_transaction(Write), mnesia:sync_log()} of
        {{atomic, ok}, ok} -> io:format("stored ~s~n", [Key]);
        Failed -> io:format(standard_error, "~p~n", [Failed])
    end.
