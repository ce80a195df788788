#!/usr/bin/python3
"""mx_proxy before toy_backend, which allows one connection, and two clients that share it, each in a session of its own."""

import os
import subprocess
import sys
import tempfile

from world import PROGRAM, TOP, check, code_of, end, have_packages, rows, wait_for

TOY = os.environ.get("TOY_BACKEND", os.path.join(TOP, "crates", "toy_backend", "out", "toy_backend"))
SERVER_PORT, PORT, ADMIN_PORT = 13306, 16033, 16032
CONFIG = f"""[proxy]
listen = "127.0.0.1:{PORT}"
admin_listen = "127.0.0.1:{ADMIN_PORT}"
admin_user = "admin"
admin_password = ""
[[users]]
name = "u"
password = ""
[[servers]]
hostgroup = 0
host = "127.0.0.1"
port = {SERVER_PORT}
max_connections = 1
"""


def connect(port=PORT, password="", user="u"):
    import pymysql

    return pymysql.connect(host="127.0.0.1", port=port, user=user, password=password, autocommit=True, read_timeout=60)


def sessions():
    first, second = connect().cursor(), connect().cursor()
    first.execute("DO 1")
    second.execute("DO 1")
    first.execute("USE a")
    first.execute("CREATE TABLE t")
    first.execute("INSERT INTO t (v) VALUES ('x')")
    check("the second client stands in another schema", code_of(second.execute, "SELECT v FROM t WHERE id = 1"), 1146)
    check("and has an insert id of its own", rows(second, "SELECT LAST_INSERT_ID()"), (("0",),))
    check("the first has that of its insert", rows(first, "SELECT LAST_INSERT_ID()"), (("1",),))
    check("and finds its row", rows(first, "SELECT v FROM t WHERE id = 1"), (("x",),))
    first.execute("SET sql_mode = 'STRICT_TRANS_TABLES'")
    check("the second has the default setting", rows(second, "SELECT @@sql_mode"), (("DEFAULT",),))
    first.connection.close()
    second.execute("DO 1")
    second.connection.close()


if not os.path.exists(TOY) or not os.path.exists(PROGRAM):
    sys.exit("build the programs first: ./mx_proxy, and rt run in crates/toy_backend")
have_packages()
# Behind each byte toy_backend takes another connection: behind that which finds out whether it is there, and that of who has a password.
toy = subprocess.Popen([TOY, str(SERVER_PORT)], stdin=subprocess.PIPE)
toy.stdin.write(b"xx")
toy.stdin.close()
wait_for(SERVER_PORT)
check("who has a password isn't let in", code_of(connect, SERVER_PORT, "secret"), 1045)
with tempfile.NamedTemporaryFile("w", suffix=".toml") as config:
    config.write(CONFIG)
    config.flush()
    proxy = subprocess.Popen([PROGRAM, "serve", config.name])
    wait_for(PORT)
    sessions()
    check("an administrator shuts the router down", code_of(connect(ADMIN_PORT, user="admin").cursor().execute, "PROXYSQL SHUTDOWN"), 0)
    check("and it ends", proxy.wait(60), 0)
check("toy_backend ends behind its connection", toy.wait(60), 0)
end()
