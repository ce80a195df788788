#!/usr/bin/python3
"""What keeps a link for its client, and goes with it: temporary tables, locks, user variables, procedures."""

from world import World, check, code_of, connect, end, rows

OPENING = "CREATE TABLE d.t (n INT); CREATE TABLE d.other (n INT);\nDELIMITER //\nCREATE PROCEDURE d.several() BEGIN SET @v = 9; SELECT 1; SELECT 2 UNION SELECT 3; END//\n"


def left(cursor):
    """What a client finds of another one's session."""
    return rows(cursor, "SELECT GET_LOCK('a', 1)"), rows(cursor, "SELECT @v"), code_of(cursor.execute, "SELECT * FROM d.temporary")


def results(cursor, statement):
    found = [rows(cursor, statement)]
    while cursor.nextset():
        found.append(cursor.fetchall())
    return found


def reset(cursor):
    cursor.connection._execute_command(0x1F, b"")
    cursor.connection._read_ok_packet()


with World(links=(2,)) as world:
    world.directly(OPENING)
    one, two = connect().cursor(), connect().cursor()
    one.execute("SET @v = 5")
    one.execute("CREATE TEMPORARY TABLE d.temporary (n INT)")
    one.execute("INSERT INTO d.temporary VALUES (7)")
    rows(one, "SELECT GET_LOCK('a', 0)")
    check("another client finds nothing of it", left(two), (((0,),), ((None,),), 1146))
    reset(two)
    check("its own does", [rows(one, text) for text in ("SELECT n FROM d.temporary", "SELECT @v", "SELECT GET_LOCK('a', 0)")], [((7,),), ((5,),), ((1,),)])
    one.connection.close()
    check("nothing is left as it goes", left(two), (((1,),), ((None,),), 1146))
    one = connect().cursor()
    check("on no link", left(one), (((0,),), ((None,),), 1146))
    reset(two)
    check("a reset frees a lock", rows(one, "SELECT GET_LOCK('a', 5)"), ((1,),))
    reset(one)
    check("links are there for others", [rows(connect().cursor(), "SELECT @v") for _ in range(5)], [((None,),)] * 5)

    check("the results of a procedure", results(one, "CALL d.several()"), [((1,),), ((2,), (3,)), ()])
    check("its variable", rows(one, "SELECT @v"), ((9,),))
    check("isn't another's", rows(two, "SELECT @v"), ((None,),))
    one.connection.close()
    check("nor a later one's", [rows(connect().cursor(), "SELECT @v") for _ in range(5)], [((None,),)] * 5)
    one = connect().cursor()
    one.execute("LOCK TABLES d.t READ")
    check("behind LOCK TABLES another table", code_of(one.execute, "SELECT * FROM d.other"), 1100)
    check("is locked for its client alone", code_of(two.execute, "SELECT * FROM d.other"), 0)
    one.connection.close()
    check("the lock is free as its client is gone", code_of(two.execute, "INSERT INTO d.t VALUES (1)"), 0)
    check("two links at most", len(world.server.links()) <= 2, True)
end()
