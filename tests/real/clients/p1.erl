#!/usr/bin/env escript
%% p1_mysql: escript p1.erl HOST PORT USER PASSWORD.
main([Host, Port, User, Password]) ->
    {ok, Link} = case p1_mysql_conn:start(Host, list_to_integer(Port), User, Password, "d", fun(_, _, _) -> ok end) of
        {ok, Found} -> {ok, Found};
        {error, Wrong} -> io:format("login: ~s~n", [Wrong]), halt(1)
    end,
    One = fun(Text) ->
        case p1_mysql_conn:fetch(Link, Text, self()) of
            {data, Result} -> case p1_mysql:get_result_rows(Result) of [] -> ""; Rows -> lists:flatten(io_lib:format("~s", [hd(lists:last(Rows))])) end;
            {updated, _} -> "";
            {error, Result} -> case p1_mysql:get_result_reason(Result) of Reason -> lists:flatten(io_lib:format("~s", [Reason])) end
        end
    end,
    Show = fun(Name, Found, Wanted) ->
        Text = case (Found =:= Wanted) orelse (Wanted =:= "1064" andalso string:find(Found, "syntax") =/= nomatch) of true -> "ok"; false -> Found ++ " in place of " ++ Wanted end,
        io:format("~s: ~s~n", [Name, Text])
    end,
    Show("select", One("SELECT 41 + 1"), "42"),
    One("DROP TABLE IF EXISTS d.stacks"),
    One("CREATE TABLE d.stacks (id INT PRIMARY KEY AUTO_INCREMENT, v VARCHAR(40)) ENGINE=InnoDB CHARACTER SET utf8mb4"),
    One("INSERT INTO d.stacks (v) VALUES ('a'), ('b')"),
    Show("write", One("SELECT COUNT(*) FROM d.stacks"), "2"),
    One("BEGIN"), One("INSERT INTO d.stacks (v) VALUES ('c')"), One("ROLLBACK"),
    Show("rollback", One("SELECT COUNT(*) FROM d.stacks"), "2"),
    Show("error", One("SELEC 1"), "1064"),
    One("SET SESSION max_recursive_iterations = 30000"),
    Show("rows", One("WITH RECURSIVE n(i) AS (SELECT 1 UNION ALL SELECT i + 1 FROM n WHERE i < 20000) SELECT i FROM n"), "20000"),
    halt(0).
