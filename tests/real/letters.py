#!/usr/bin/python3
"""Clients of other character sets on one link: each writes and reads its own letters."""

from world import World, check, code_of, connect, end, rows

TEXT = "Grüße, 5 €"

with World(links=(1,)) as world:
    world.directly("CREATE TABLE d.t (n INT, v TEXT CHARACTER SET utf8mb4);")
    clients = [connect(charset=name).cursor() for name in ("latin1", "utf8mb4", "cp1257", "latin1")]
    for n, cursor in enumerate(clients):
        cursor.execute("INSERT INTO d.t VALUES (%s, %s)", (n, TEXT if n != 2 else "žąč"))
    link = world.server.links()
    for n, cursor in enumerate(clients):
        check(f"{cursor.connection.charset} reads its letters", rows(cursor, f"SELECT v FROM d.t WHERE n = {n}")[0][0], TEXT if n != 2 else "žąč")
    check("latin1 reads those of utf8mb4", rows(clients[0], "SELECT v FROM d.t WHERE n = 1"), ((TEXT,),))
    check("utf8mb4 reads those of latin1", rows(clients[1], "SELECT v FROM d.t WHERE n = 0"), ((TEXT,),))
    found = [rows(cursor, "SELECT HEX('ü')")[0][0] for cursor in clients[:2] * 2]
    check("their bytes", found, ["FC", "C3BC"] * 2)
    check("the server holds the same", world.directly("SELECT COUNT(DISTINCT HEX(v)) FROM d.t WHERE n <> 2"), "1\n")
    clients[0].execute("SET NAMES utf8mb4")
    check("SET NAMES", rows(clients[0], "SELECT @@character_set_client, @@collation_connection"), (("utf8mb4", "utf8mb4_general_ci"),))
    check("is one client's", rows(clients[3], "SELECT @@character_set_client, @@character_set_results"), (("latin1", "latin1"),))
    clients[1].execute("SET character_set_results = NULL")
    check("so is what results are in", [rows(cursor, "SELECT @@character_set_results")[0][0] for cursor in clients[1:]], [None, "cp1257", "latin1"])
    clients[2].execute("SET NAMES utf8mb4 COLLATE utf8mb4_bin")
    check("a collation", [rows(cursor, "SELECT @@collation_connection")[0][0] for cursor in clients[1:3]], ["utf8mb4_general_ci", "utf8mb4_bin"])
    check("gbk isn't served", code_of(connect, charset="gbk"), 1115)
    check("all that ran on one link", (len(link), world.server.links()), (1, link))
end()
