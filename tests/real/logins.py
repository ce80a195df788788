#!/usr/bin/python3
"""Logins, by PyMySQL and by the command line of MariaDB."""

import subprocess

from world import PORT, World, check, code_of, connect, end


def command_line(user, password, statement):
    """The status of `mariadb`, and the number of the error that it prints, if it does."""
    done = subprocess.run(["mariadb", "--no-defaults", "--protocol=tcp", "-h", "127.0.0.1", "-P", str(PORT), "-u", user,
                           f"--password={password}", "-e", statement], capture_output=True, text=True, timeout=60)
    error = done.stderr.split()[1] if done.stderr.startswith("ERROR") else "none"
    return done.returncode, error


with World() as world:
    check("a user with a password", code_of(connect), 0)
    check("a user without one", code_of(connect, "n", ""), 0)
    check("a wrong password", code_of(connect, "u", "Secret"), 1045)
    check("no password where there is one", code_of(connect, "u", ""), 1045)
    check("a password where there is none", code_of(connect, "n", "secret"), 1045)
    check("an unknown user", code_of(connect, "x", ""), 1045)
    check("a character set that is served", code_of(connect, charset="latin1"), 0)
    check("one that isn't", code_of(connect, charset="gbk"), 1115)
    check("the same with a wrong password", code_of(connect, "u", "Secret", charset="gbk"), 1045)
    check("the command line logs in", command_line("u", "secret", "DO 1"), (0, "none"))
    check("the command line with a wrong password", command_line("u", "wrong", "DO 1"), (1, "1045"))
    stranger = connect("stranger", "the server doesn't know this user", autocommit=None)
    check("a user that the server refuses", code_of(stranger.query, "DO 1"), 9103)
    check("and again", code_of(stranger.query, "DO 1"), 9103)
    check("a PING, without the server", code_of(stranger.ping, reconnect=False), 0)
    for _ in range(50):
        connect().close()
    check("fifty that come and go", code_of(connect), 0)
end()
