"""`python -m lugcurrant [PORT | URL]`: prints the tree of a document, again after each change, until it is interrupted."""

import asyncio
import sys

from .client import Client
from .link import Link


async def show(url: str) -> int:
    """Prints the tree of the document at this URL after each change, until the link has ended."""
    link = Link(Client(), url, state=lambda link: print(f"-- {link.state.value}{': ' + link.words if link.words else ''}", flush=True))
    running = asyncio.create_task(link.run())
    async for _ in link.changes():
        screen = "\x1b[H\x1b[2J" if sys.stdout.isatty() else ""
        print(f"{screen}version {link.client.version}\n{link.client.text()}", end="", flush=True)
    await running
    return 1


def main() -> int:
    """Runs the program, and returns its status."""
    word = sys.argv[1] if len(sys.argv) > 1 else "7411"
    try:
        return asyncio.run(show(word if "://" in word else f"ws://127.0.0.1:{word}/"))
    except KeyboardInterrupt:
        return 0


if __name__ == "__main__":
    sys.exit(main())
