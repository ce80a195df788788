"""SQLAlchemy over PyMySQL: python3 alchemy.py HOST PORT USER PASSWORD."""
import sys

from sqlalchemy import create_engine, text

from cases import cases

host, port, user, password = sys.argv[1:5]
engine = create_engine(f"mysql+pymysql://{user}:{password}@{host}:{port}/?charset=utf8mb4", pool_pre_ping=True)
link = engine.connect()


def rows(statement):
    found = link.execute(text(statement.replace(":", "\\:")))
    return [tuple(row) for row in found.fetchall()] if found.returns_rows else []


WORK = []


cases(rows, begin=lambda: WORK.append(link.begin()), commit=lambda: None, rollback=lambda: WORK.pop().rollback(),
      prepared=lambda: [tuple(row) for row in link.execute(text("SELECT :a + 1"), {"a": 41})])
