"""peewee over PyMySQL: python3 peewee_one.py HOST PORT USER PASSWORD."""
import sys

from peewee import CharField, Model, MySQLDatabase

from cases import cases

host, port, user, password = sys.argv[1:5]
base = MySQLDatabase("d", host=host, port=int(port), user=user, password=password, charset="utf8mb4")
base.connect()


def rows(text):
    cursor = base.execute_sql(text, commit=False)
    return list(cursor.fetchall()) if cursor.description else []


class Row(Model):
    v = CharField()

    class Meta:
        database = base
        table_name = "stacks"
        schema = "d"


cases(rows, begin=base.begin, commit=base.commit, rollback=base.rollback, prepared=lambda: [(41 + Row.select().where(Row.v == "a").count(),)])
