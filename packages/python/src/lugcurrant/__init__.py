"""A client of a Lugcurrant document, over the C library of the proved core.

    from lugcurrant import ROOT, Client, Link

    async with Link(Client(), "ws://127.0.0.1:7411/") as link:
        page = link.client.create_last("page", ROOT)
        link.client.set(page, "name", "Plan")
        await link.settled()

`Client` holds the document, merges and speaks no network; it needs nothing but the library. `Link` needs the package `websockets`.
"""

from typing import TYPE_CHECKING

from ._api import FAULTS, NO_REASONS, REFUSALS, State, What
from ._api import VERSION as __version__
from .client import Changes, Client, Heard
from .flow import Event, Flow
from .keep import FileShelf, Kept, ReplayError, Shelf
from .library import ClientError, LibraryMissing
from .presence import Presence
from .shown import Shown
from .tree import Node
from .values import ROOT, Colour, ObjectId, Value

if TYPE_CHECKING:
    from .link import Link, LinkEnded

__all__ = [
    "Changes", "Client", "ClientError", "Colour", "Event", "FAULTS", "FileShelf", "Flow", "Heard", "Kept", "LibraryMissing", "Link", "LinkEnded",
    "NO_REASONS", "Node", "ObjectId", "Presence", "REFUSALS", "ReplayError", "ROOT", "Shelf", "Shown", "State", "Value", "What", "__version__",
]  # fmt: skip


def __getattr__(name: str) -> object:
    if name in ("Link", "LinkEnded"):
        from . import link

        return getattr(link, name)
    raise AttributeError(f"module 'lugcurrant' has no attribute {name!r}")
