#!/usr/bin/python3
"""Statements that are answered by rows, by PyMySQL and by the command line client."""

import subprocess

from world import PORT, World, check, code_of, connect, end

NUMBERS = "SELECT n, REPEAT(CHAR(65 + n % 26 USING utf8mb4), n % 40) FROM d.numbers ORDER BY n"


def rows_of(cursor, statement):
    cursor.execute(statement)
    return cursor.fetchall()


def field_list(link, schema, table):
    """How many columns COM_FIELD_LIST tells of."""
    link.select_db(schema)
    link._execute_command(0x04, table + "\0")
    count = 0
    while not link._read_packet().is_eof_packet():
        count += 1
    return count


def command_line(statements, *words):
    """What the command line client prints, which comes through mx_proxy."""
    done = subprocess.run(["mariadb", "--no-defaults", "-h", "127.0.0.1", "-P", str(PORT), "-u", "u", "-psecret", *words],
                          input=statements, check=False, capture_output=True, text=True)
    return done.stdout + done.stderr


with World() as world:
    world.directly("USE d; CREATE TABLE numbers (n INT PRIMARY KEY); INSERT INTO numbers SELECT seq FROM seq_1_to_100000;"
                   "CREATE TABLE empty_table (n INT, v TEXT); INSERT INTO empty_table VALUES (1, NULL), (2, '');")
    world.directly("DELIMITER //\nCREATE PROCEDURE d.several() BEGIN SELECT 1; SELECT n FROM d.numbers WHERE n < 4 ORDER BY n; END//\n")
    link = connect()
    cursor = link.cursor()
    check("SELECT 1", rows_of(cursor, "SELECT 1"), ((1,),))
    check("no row", rows_of(cursor, "SELECT n FROM d.numbers WHERE n < 0"), ())
    check("NULL and an empty text", rows_of(cursor, "SELECT v FROM d.empty_table ORDER BY n"), ((None,), ("",)))
    wanted = tuple((n, chr(65 + n % 26) * (n % 40)) for n in range(1, 100_001))
    check("100,000 rows, read whole and compared", rows_of(cursor, NUMBERS) == wanted, True)
    check("and once more on the same link", rows_of(cursor, NUMBERS) == wanted, True)
    cursor.execute("CALL d.several()")
    results = [cursor.fetchall()]
    while cursor.nextset():
        results.append(cursor.fetchall())
    check("the results of a procedure", results, [((1,),), ((1,), (2,), (3,)), ()])
    for size in (16_777_214, 16_777_215, 20_000_000):
        check(f"a value of {size} bytes", rows_of(cursor, f"SELECT REPEAT('x', {size})") == (("x" * size,),), True)
    check("SHOW VARIABLES", dict(rows_of(cursor, "SHOW VARIABLES LIKE 'autocommit'")), {"autocommit": "ON"})
    check("an error behind rows", code_of(rows_of, cursor, "SELECT n FROM d.numbers UNION SELECT JSON_VALUE(1, 2, 3)"), 1582)
    check("the next statement", rows_of(cursor, "SELECT 2"), ((2,),))
    check("COM_INIT_DB", code_of(link.select_db, "d"), 0)
    check("its schema", rows_of(cursor, "SELECT DATABASE()"), (("d",),))
    check("a schema that isn't there", code_of(link.select_db, "none"), 1049)
    world.directly("USE d; CREATE TABLE large (v LONGBLOB)")
    for size in (16_777_000, 16_777_214, 16_777_215, 20_000_000, 40_000_000):
        cursor.execute(f"INSERT INTO d.large VALUES ('{'x' * size}')")
        check(f"an INSERT of {size} bytes", rows_of(cursor, f"SELECT COUNT(*) FROM d.large WHERE v = REPEAT('x', {size})"), ((1,),))
    # The router closes the link while such a client still sends, which then may not read its error.
    check("one of more than max_packet", code_of(cursor.execute, f"INSERT INTO d.large VALUES ('{'x' * 70_000_000}')") in (1153, 2006, 2013), True)
    link = connect()
    cursor = link.cursor()
    check("COM_FIELD_LIST", field_list(link, "d", "numbers"), 1)
    check("of a table that isn't there", code_of(field_list, link, "d", "none"), 1146)
    check("and the next statement", rows_of(cursor, "SELECT 3"), ((3,),))
    cursor.execute("SET @v = 'mine'")
    check("a user variable", rows_of(cursor, "SELECT @v"), (("mine",),))
    link.close()
    check("the command line client", command_line("SELECT COUNT(*), SUM(n) FROM d.numbers", "-N"), "100000\t5000050000\n")
    check("its tables", command_line("USE d;\nSHOW TABLES;", "-N", "-A"), "empty_table\nlarge\nnumbers\n")
    check("the same rows as on the server's own socket", command_line(NUMBERS, "-N") == world.directly(NUMBERS), True)
    check("and errors", command_line("SELECT * FROM d.none", "-N").splitlines()[-1:], ["ERROR 1146 (42S02) at line 1: Table 'd.none' doesn't exist"])
end()
