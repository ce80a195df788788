"""MariaDB servers and an mx_proxy of a script's own, on ports of their own, with their data in a folder of their own."""

import os
import shutil
import signal
import socket
import subprocess
import sys
import tempfile
import time

HERE = os.path.dirname(os.path.abspath(__file__))
TOP = os.path.dirname(os.path.dirname(HERE))
PROGRAM = os.environ.get("MX_PROXY", os.path.join(TOP, "crates", "mx_proxy", "out", "mx_proxy"))
SERVER_PORT, PORT, ADMIN_PORT = 23306, 26033, 26032  # a second server has the port behind the first one's
PACKAGES = {"mariadbd": "mariadb-server", "mariadb": "mariadb-client"}

CONFIG = f"""[proxy]
listen = "127.0.0.1:{PORT}"
admin_listen = "127.0.0.1:{ADMIN_PORT}"
admin_user = "admin"
admin_password = "admin"
{{proxy}}
[[users]]
name = "u"
password = "secret"
[[users]]
name = "n"
password = ""
[[users]]
name = "stranger"
password = "the server doesn't know this user"
"""
SERVER = """[[servers]]
hostgroup = {hostgroup}
host = "127.0.0.1"
port = {port}
max_connections = {links}
"""

OPENING = """
CREATE DATABASE d;
CREATE USER 'u'@'127.0.0.1' IDENTIFIED VIA mysql_native_password USING PASSWORD('secret');
CREATE USER 'n'@'127.0.0.1' IDENTIFIED VIA mysql_native_password USING PASSWORD('');
GRANT ALL ON *.* TO 'u'@'127.0.0.1';
GRANT ALL ON *.* TO 'n'@'127.0.0.1';
"""


def have_packages():
    """Installs what is missing, by Debian's apt-get."""
    missing = [package for name, package in PACKAGES.items() if shutil.which(name) is None]
    try:
        import pymysql  # noqa: F401
    except ImportError:
        missing.append("python3-pymysql")
    if missing:
        environment = dict(os.environ, DEBIAN_FRONTEND="noninteractive")
        subprocess.run(["apt-get", "update", "-qq"], check=True, stdout=subprocess.DEVNULL)
        subprocess.run(["apt-get", "install", "-y", "-qq", "--no-install-recommends", *missing], env=environment, check=True,
                       stdout=subprocess.DEVNULL)


def answers(port):
    try:
        with socket.create_connection(("127.0.0.1", port), 1) as link:
            link.settimeout(5)
            return link.recv(1) != b""
    except OSError:
        return False


def wait_for(port):
    for _ in range(600):
        if answers(port):
            return
        time.sleep(0.1)
    sys.exit(f"nothing answers at port {port}")


class Server:
    """A MariaDB server."""

    def __init__(self, data, port):
        self.data, self.port, self.running = data, port, None
        self.user = ["--user=mysql"] if os.geteuid() == 0 else []
        os.mkdir(data)
        if os.geteuid() == 0:
            shutil.chown(data, "mysql", "mysql")
        subprocess.run(["mariadb-install-db", "--no-defaults", "--auth-root-authentication-method=normal", "--skip-test-db",
                        f"--datadir={data}", *self.user], check=True, stdout=subprocess.DEVNULL, stderr=subprocess.DEVNULL)
        self.start()
        self.directly(OPENING)

    def start(self):
        self.running = subprocess.Popen(
            ["mariadbd", "--no-defaults", f"--datadir={self.data}", f"--socket={self.data}/socket", f"--port={self.port}",
             "--bind-address=127.0.0.1", "--skip-name-resolve", "--skip-log-bin", "--max-connections=4100", "--back-log=4000",
             "--max-allowed-packet=64M", "--thread-cache-size=256", *self.user],
            stdout=subprocess.DEVNULL, stderr=subprocess.DEVNULL)
        wait_for(self.port)

    def kill(self):
        self.running.kill()
        self.running.wait()

    def directly(self, statements, check=True):
        """What the server itself answers to these statements, on its socket."""
        done = subprocess.run(["mariadb", "--no-defaults", "-N", "-u", "root", f"--socket={self.data}/socket"], input=statements,
                              check=check, capture_output=True, text=True)
        return done.stdout

    def links(self):
        """The numbers of the sessions of `u` here, which are mx_proxy's links."""
        return self.directly("SELECT id FROM information_schema.processlist WHERE user = 'u'").split()

    def kill_links(self, numbers=None):
        """Kills these links, or all."""
        for number in self.links() if numbers is None else numbers:
            self.directly(f"KILL {number}", check=False)  # it may be gone already


class World:
    """`with World() as world:` starts a server and an mx_proxy before it, and stops both. There are as many servers as `links` has numbers,
    each in a hostgroup of its own, and each number is the most links to its server. `proxy` and `more` are lines of the configuration."""

    def __init__(self, wrap=(), links=(100,), proxy="max_clients = 4000", more=""):
        have_packages()
        if not os.path.exists(PROGRAM):
            sys.exit("build the program first: ./mx_proxy")
        self.wrap = list(wrap)
        self.most, self.proxy_lines, self.more = links, proxy, more
        self.folder = tempfile.mkdtemp(prefix="mx_proxy-")
        os.chmod(self.folder, 0o755)
        self.servers = []
        self.proxy = None

    def __enter__(self):
        for k in range(len(self.most)):
            self.servers.append(Server(os.path.join(self.folder, f"data{k}"), SERVER_PORT + k))
        self.server = self.servers[0]
        self.config = os.path.join(self.folder, "mx_proxy.toml")
        with open(self.config, "w", encoding="utf-8") as file:
            file.write(CONFIG.format(proxy=self.proxy_lines))
            for k, most in enumerate(self.most):
                file.write(SERVER.format(hostgroup=k, port=SERVER_PORT + k, links=most))
            file.write(self.more)
        self.start_proxy()
        return self

    def __exit__(self, *_):
        for process in (self.proxy, *(server.running for server in self.servers)):
            if process is not None and process.poll() is None:
                process.send_signal(signal.SIGTERM)
                process.wait(60)
        shutil.rmtree(self.folder, ignore_errors=True)

    def start_proxy(self):
        limit = 'ulimit -n 65536 2>/dev/null; exec "$@"'
        self.proxy = subprocess.Popen(["sh", "-c", limit, "sh", *self.wrap, PROGRAM, "serve", self.config])
        wait_for(PORT)

    def directly(self, statements):
        return self.server.directly(statements)


def connect(user="u", password="secret", **more):
    """A connection of PyMySQL through mx_proxy."""
    import pymysql

    more = {"autocommit": True, "connect_timeout": 10, "read_timeout": 60, **more}
    return pymysql.connect(host="127.0.0.1", port=PORT, user=user, password=password, **more)


def rows(cursor, statement):
    """The rows that answer a statement."""
    cursor.execute(statement)
    return cursor.fetchall()


FAULTS = []


def check(what, got, wanted):
    """Compares, and says so."""
    if got == wanted:
        print(f"ok: {what}")
    else:
        FAULTS.append(what)
        print(f"WRONG: {what}: got {got!r}, and not {wanted!r}")


def not_yet(what, got):
    """Says what doesn't work so far, and how it fails."""
    print(f"not yet: {what}: {got}")


def code_of(call, *given, **named):
    """The number of the error that the call ends with, or 0."""
    import pymysql

    try:
        call(*given, **named)
    except pymysql.MySQLError as error:
        return error.args[0] if error.args else -1
    return 0


def end():
    sys.exit(1 if FAULTS else 0)
