"""The cases, for clients in Python. Each prints its name and `ok`, or what went wrong."""

TABLE = "d.stacks"


def show(name, case):
    try:
        wrong = case()
    except Exception as error:  # whatever it is, the case failed
        wrong = repr(error)
    print(f"{name}: {'ok' if wrong is None else str(wrong)[:120]}", flush=True)


def want(found, wanted):
    return None if found == wanted else f"{found!r} in place of {wanted!r}"


def cases(rows, begin, commit, rollback, prepared=None, ping=None):
    def select():
        return want([int(cell) for row in rows("SELECT 41 + 1") for cell in row], [42])

    def write():
        rows(f"DROP TABLE IF EXISTS {TABLE}")
        rows(f"CREATE TABLE {TABLE} (id INT PRIMARY KEY AUTO_INCREMENT, v VARCHAR(40)) ENGINE=InnoDB CHARACTER SET utf8mb4")
        rows(f"INSERT INTO {TABLE} (v) VALUES ('a'), ('b')")
        commit()
        return want([int(row[0]) for row in rows(f"SELECT COUNT(*) FROM {TABLE}")], [2])

    def undone():
        begin()
        rows(f"INSERT INTO {TABLE} (v) VALUES ('c')")
        rollback()
        return want([int(row[0]) for row in rows(f"SELECT COUNT(*) FROM {TABLE}")], [2])

    def error():
        try:
            rows("SELEC 1")
        except Exception as fault:
            return None if "1064" in repr(fault) else repr(fault)
        return "no error"

    def text():
        return want([row[0] for row in rows("SELECT 'grüße'")], ["grüße"])

    def many():
        found = rows("WITH RECURSIVE n(i) AS (SELECT 1 UNION ALL SELECT i + 1 FROM n WHERE i < 20000) SELECT i FROM n")
        return want((len(found), int(found[-1][0])), (20000, 20000))

    rows("SET SESSION max_recursive_iterations = 30000")
    show("select", select)
    show("write", write)
    show("rollback", undone)
    show("error", error)
    show("text", text)
    show("rows", many)
    if prepared is not None:
        show("prepared", lambda: want([int(row[0]) for row in prepared()], [42]))
    if ping is not None:
        show("ping", lambda: ping() and None)
