#!/usr/bin/env python3
"""notes.py [URL]: makes a page with a note, and prints what changes until it is interrupted."""

import asyncio
import sys

from lugcurrant import ROOT, Client, Colour, Link


async def main(url: str) -> None:
    async with Link(Client(), url, state=lambda link: print(link.state.value, link.words, file=sys.stderr)) as link:
        client = link.client
        pages = client.children(ROOT)
        page = pages[0] if pages else client.create_last("page", ROOT)
        note = client.create_last("text", page)
        client.set(note, "text", "A note from Python")
        client.set(note, "fill", Colour.of("#b4405f"))
        await link.settled()  # the server has them, and they are on its disk
        async for changes in link.changes():
            print([f"{shown.id} {shown.kind}" for shown in changes.put], [str(at) for at in changes.gone], flush=True)


try:
    asyncio.run(main(sys.argv[1] if len(sys.argv) > 1 else "ws://127.0.0.1:7411/"))
except KeyboardInterrupt:
    pass
