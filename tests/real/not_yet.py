#!/usr/bin/python3
"""What is to work and doesn't so far. Each line says how it ends."""

from world import World, check, code_of, connect, end, not_yet

COMMANDS = [("COM_CHANGE_USER", 0x11, b"u\0\0d\0")]

with World() as world:
    link = connect()
    for name, byte, words in COMMANDS:
        link._execute_command(byte, words)
        not_yet(name, code_of(link._read_packet))
    check("the client goes on", code_of(link.cursor().execute, "DO 1"), 0)
    check("others go on", code_of(connect().cursor().execute, "DO 1"), 0)
end()
