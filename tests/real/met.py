#!/usr/bin/python3
"""What real clients met: a client without a login, commands that have no answer, hosts that vanish, and words that ask for a text."""

import socket
import struct
import subprocess
import time

from world import PORT, PROGRAM, SERVER_PORT, World, check, code_of, connect, end

RESPONSE = bytes.fromhex("3b0000010da20e00000000012d000000000000000000000000000000000000000000000075000064006d7973716c5f6e61746976655f70617373776f726400")


def greeted():
    link = socket.create_connection(("127.0.0.1", PORT), 30)
    link.settimeout(30)
    link.recv(4096)
    return link


def rest_of(link):
    """What comes until the end, and when that was."""
    told = b""
    while piece := link.recv(4096):
        told += piece
    return told, time.monotonic()


def signs_of_life():
    """Of the router's ends of its connections, whether the system asks the other end for signs of life (proc(5), /proc/net/tcp)."""
    found = {"clients": [], "servers": []}
    with open("/proc/net/tcp", encoding="ascii") as file:
        for line in list(file)[1:]:
            fields = line.split()
            local, remote = (int(fields[k].split(":")[1], 16) for k in (1, 2))
            if fields[3] == "01" and local == PORT:
                found["clients"].append(fields[5].split(":")[0] == "02")
            if fields[3] == "01" and remote == SERVER_PORT:
                found["servers"].append(fields[5].split(":")[0] == "02")
    return found


with World() as world:
    began = time.monotonic()
    silent, half = greeted(), greeted()
    half.sendall(RESPONSE[:20])
    long = greeted()
    long.sendall(bytes.fromhex("01000101"))
    check("a login of 65,537 bytes", rest_of(long)[0][5:7], struct.pack("<H", 1153))

    link = connect()
    cursor = link.cursor()
    link._execute_command(0x19, struct.pack("<I", 7))
    link._execute_command(0x18, struct.pack("<IH", 7, 0) + b"data")
    link._execute_command(0x19, b"")
    cursor.execute("SELECT 41 + 1")
    check("a command behind those without an answer", cursor.fetchall(), ((42,),))

    # Until the other end has acknowledged all, the timer there is another one.
    time.sleep(0.5)
    found = signs_of_life()
    check("clients are asked for signs of life", found["clients"], [True] * 3)
    check("so are servers", found["servers"], [True])

    for name, one in (("nothing", silent), ("half a login", half)):
        told, ended = rest_of(one)
        check(f"a client that says {name} is told", told, b"")
        check(f"and its link closes after {name}", 9.9 < ended - began < 12, True)
    check("the one that logged in is there", code_of(cursor.execute, "DO 1"), 0)

for word, begin in (("--help", "mx_proxy "), ("--version", "mx_proxy ")):
    done = subprocess.run([PROGRAM, word], capture_output=True, text=True, check=False)
    check(f"{word} ends with", (done.returncode, done.stdout.startswith(begin), done.stderr), (0, True, ""))
end()
