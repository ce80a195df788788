"""Prepared statements of ODBC: python3 prepared_odbc.py HOST PORT USER PASSWORD."""
import datetime
import decimal
import sys

import pyodbc

from cases import show, want

host, port, user, password = sys.argv[1:5]
link = pyodbc.connect(f"DRIVER={{MariaDB Unicode}};SERVER={host};PORT={port};UID={user};PWD={password}", autocommit=True)
cursor = link.cursor()
cursor.execute("DROP TABLE IF EXISTS d.p")
cursor.execute("CREATE TABLE d.p (i BIGINT, u BIGINT UNSIGNED, f DOUBLE, c DECIMAL(20,4), t VARCHAR(60), w DATETIME(6), n INT, b LONGBLOB) CHARACTER SET utf8mb4")
ROW = (2**63 - 1, 1.5, decimal.Decimal("12345678901234.5678"), "grüße", datetime.datetime(2024, 2, 29, 12, 34, 56), None)
WHOLE = b"".join(bytes([97 + k]) * (1 << 20) for k in range(20))


def types():
    for i in (-5, 6):
        cursor.execute("INSERT INTO d.p (i, u, f, c, t, w, n) VALUES (?, ?, ?, ?, ?, ?, ?)", i, *ROW)
    for i in (-5, 6):
        found = tuple(cursor.execute("SELECT i, u, f, c, t, w, n FROM d.p WHERE i = ?", i).fetchone())
        if found != (i, *ROW):
            return f"{found!r}"
    return None


def blob():
    cursor.execute("INSERT INTO d.p (i, b) VALUES (7, ?)", WHOLE)
    return want(cursor.execute("SELECT b FROM d.p WHERE i = ?", 7).fetchone()[0] == WHOLE, True)


def hundred():
    all_of_them = [link.cursor() for _ in range(100)]
    for turn in range(3):
        for k, one in enumerate(all_of_them):
            found = int(one.execute(f"SELECT ? + {k}", 1000 * turn).fetchone()[0])
            if found != 1000 * turn + k:
                return f"{found} in place of {1000 * turn + k}"
    return None


def undone():
    link.autocommit = False
    cursor.execute("INSERT INTO d.p (i) VALUES (?)", 99)
    link.rollback()
    link.autocommit = True
    return want(cursor.execute("SELECT COUNT(*) FROM d.p WHERE i = ?", 99).fetchone()[0], 0)


for name, case in (("types", types), ("blob", blob), ("hundred", hundred), ("undone", undone)):
    show(name, case)
