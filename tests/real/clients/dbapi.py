"""PyMySQL, MySQLdb: python3 dbapi.py MODULE HOST PORT USER PASSWORD."""
import importlib
import sys

from cases import cases

module = importlib.import_module(sys.argv[1])
host, port, user, password = sys.argv[2:6]
link = module.connect(host=host, port=int(port), user=user, passwd=password, charset="utf8mb4")
cursor = link.cursor()


def rows(text):
    cursor.execute(text)
    return [tuple(row) for row in cursor.fetchall()]


def prepared():
    rows("PREPARE s FROM 'SELECT ? + 1'")
    rows("SET @a = 41")
    return rows("EXECUTE s USING @a")


cases(rows, begin=link.begin if hasattr(link, "begin") else lambda: rows("BEGIN"), commit=link.commit, rollback=link.rollback, prepared=prepared, ping=link.ping)
link.close()
