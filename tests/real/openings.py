#!/usr/bin/python3
"""What drivers and frameworks send first keeps no link: beside each of them, while it stays, another client is served where there is one link
alone. Tries the drivers that are installed (tests/real/stacks installs them)."""

import shutil
import subprocess

from world import PORT, World, check, code_of, connect, end, rows

# Each logs in as `u`, opens a transaction and ends it, says so, and stays until its input ends.
PERL = 'use DBI; my $d = DBI->connect("dbi:{}:database=d;host=127.0.0.1;port=' + str(PORT) + '", "u", "secret", { RaiseError => 1 });'
PERL += '$d->selectall_arrayref("select 1"); $d->begin_work; $d->commit; $| = 1; print "ready\\n"; <STDIN>'
PHP = 'echo "ready\\n"; fgets(STDIN);'
PDO = f'$d = new PDO("mysql:host=127.0.0.1;port={PORT};dbname=d;charset=utf8mb4", "u", "secret", [PDO::ATTR_AUTOCOMMIT => 0]); $d->query("select 1")->fetchAll();'
PDO += '$d->setAttribute(PDO::ATTR_AUTOCOMMIT, 1); $d->beginTransaction(); $d->commit();' + PHP
MYSQLI = f'$d = new mysqli("127.0.0.1", "u", "secret", "d", {PORT}); $d->set_charset("utf8mb4"); $d->autocommit(false); $d->query("select 1");'
MYSQLI += '$d->autocommit(true); $d->begin_transaction(); $d->commit();' + PHP
RUBY = f'require "mysql2"; c = Mysql2::Client.new(host: "127.0.0.1", port: {PORT}, username: "u", password: "secret", database: "d", encoding: "utf8mb4");'
RUBY += 'c.query("begin"); c.query("select 1").to_a; c.query("commit"); puts "ready"; $stdout.flush; gets'
PYTHON = f'import {{0}} as m; c = m.connect(host="127.0.0.1", port={PORT}, user="u", {{1}}="secret", {{2}}="d", charset="utf8mb4")\n'
PYTHON += 'c.cursor().execute("select 1"); c.commit(); print("ready", flush=True); input()'
DRIVERS = {
    "DBD::mysql": ["perl", "-e", PERL.replace("{}", "mysql")],
    "DBD::MariaDB": ["perl", "-e", PERL.replace("{}", "MariaDB")],
    "PDO": ["php", "-r", PDO],
    "mysqli": ["php", "-r", MYSQLI],
    "mysql2 of Ruby": ["ruby", "-e", RUBY],
    "mysqlclient": ["/usr/bin/python3", "-c", PYTHON.format("MySQLdb", "passwd", "db")],
    "PyMySQL": ["/usr/bin/python3", "-c", PYTHON.format("pymysql", "password", "database")],
}
# The openings of frameworks, as they send them.
FRAMEWORKS = {
    "Drupal": ["SET NAMES utf8mb4", "SET sql_mode = 'ANSI,TRADITIONAL'"],
    "WordPress": ["SET NAMES utf8mb4 COLLATE utf8mb4_unicode_520_ci", "SET SESSION sql_mode='NO_ENGINE_SUBSTITUTION'"],
    "Laravel": ["use `d`;", "set names 'utf8mb4' collate 'utf8mb4_unicode_ci'", "set session sql_mode='ONLY_FULL_GROUP_BY,STRICT_TRANS_TABLES,NO_ZERO_DATE'"],
    "Django": ["SET SQL_AUTO_IS_NULL = 0", "SET SESSION TRANSACTION ISOLATION LEVEL READ COMMITTED"],
    "Go's driver": ["SET NAMES utf8mb4", "SET tx_isolation='READ-COMMITTED'", "SET autocommit=1"],
}


def served(name):
    other = connect().cursor()
    check(f"beside {name} another client is served", code_of(other.execute, "DO 1"), 0)
    other.connection.close()


with World(links=(1,), proxy="max_clients = 100\nwait_ms = 2000") as world:
    for name, command in DRIVERS.items():
        if shutil.which(command[0]) is None:
            print(f"absent: {name}")
            continue
        client = subprocess.Popen(command, stdin=subprocess.PIPE, stdout=subprocess.PIPE, stderr=subprocess.DEVNULL, text=True)
        if client.stdout.readline() == "ready\n":
            served(name)
        else:
            print(f"absent: {name}, or it isn't served")
        client.communicate("\n")
    connect().cursor().execute("DO 1")
    link = world.server.links()
    for name, texts in FRAMEWORKS.items():
        one = connect(database="d").cursor()
        check(f"the opening of {name}", [code_of(one.execute, text) for text in (*texts, "BEGIN", "DO 1", "COMMIT")], [0] * (len(texts) + 3))
        served(name)
        one.connection.close()
        check("on the same link, which stays", world.server.links(), link)
    one = connect().cursor()
    one.execute("SET @v = 1")
    check("beside one that keeps it none is", code_of(connect().cursor().execute, "DO 1"), 9102)
end()
