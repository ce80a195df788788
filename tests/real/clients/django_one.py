"""Django over MySQLdb: python3 django_one.py HOST PORT USER PASSWORD."""
import sys

from django.conf import settings

from cases import cases

host, port, user, password = sys.argv[1:5]
settings.configure(DATABASES={"default": {"ENGINE": "django.db.backends.mysql", "HOST": host, "PORT": port, "USER": user, "PASSWORD": password,
                                          "NAME": "d", "OPTIONS": {"charset": "utf8mb4"}}})
import django  # noqa: E402
from django.db import connection, transaction  # noqa: E402

django.setup()


def rows(text):
    with connection.cursor() as cursor:
        cursor.execute(text)
        return cursor.fetchall() if cursor.description else []


def parameters():
    with connection.cursor() as cursor:
        cursor.execute("SELECT %s + 1", [41])
        return cursor.fetchall()


cases(rows, begin=lambda: transaction.set_autocommit(False), commit=lambda: connection.get_autocommit() or transaction.commit(),
      rollback=lambda: (transaction.rollback(), transaction.set_autocommit(True)), prepared=parameters)
