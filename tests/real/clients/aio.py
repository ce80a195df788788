"""aiomysql: python3 aio.py HOST PORT USER PASSWORD."""
import asyncio
import sys

import aiomysql

from cases import cases

host, port, user, password = sys.argv[1:5]
loop = asyncio.new_event_loop()


async def connect():
    return await aiomysql.connect(host=host, port=int(port), user=user, password=password, charset="utf8mb4")


link = loop.run_until_complete(connect())


async def ask(text):
    async with link.cursor() as cursor:
        await cursor.execute(text)
        return await cursor.fetchall()


def wait(what):
    return lambda: loop.run_until_complete(what())


cases(lambda text: loop.run_until_complete(ask(text)), begin=wait(link.begin), commit=wait(link.commit), rollback=wait(link.rollback), ping=wait(link.ping))
link.close()
