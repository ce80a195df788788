#!/usr/bin/python3
"""More clients than the process may have descriptors for: those for whom there is none wait, and nobody is told 9103."""

import threading

from world import World, check, code_of, connect, end

LIMIT, CLIENTS = 128, 150
codes = []


def one_client():
    link = connect(connect_timeout=60)
    link.cursor().execute("SELECT SLEEP(0.1)")
    link.close()


def client():
    """Logs in, has a session on the server, and goes."""
    codes.append(code_of(one_client))


# World's own limit is 65,536; this one is set behind it.
with World(wrap=["prlimit", f"--nofile={LIMIT}:{LIMIT}"]) as world:
    threads = [threading.Thread(target=client) for _ in range(CLIENTS)]
    for thread in threads:
        thread.start()
    for thread in threads:
        thread.join()
    check("each client is served in its turn", sorted(set(codes)), [0])
    check("all of them", len(codes), CLIENTS)
end()
