"""A client's way to a server: it joins, sends what waits, asks for news, and comes back when the connection is lost. What it says and hears stands
in flow.py; here are the sockets, the clock, the guard of the document's identity, and what is told."""

import asyncio
import contextlib
import http.client
import importlib
import random
import time
import urllib.error
import urllib.request
from types import TracebackType
from typing import Any, AsyncIterator, Callable
from urllib.parse import urljoin, urlsplit, urlunsplit

from ._api import FINAL_STATES, SENTENCES, State
from .client import Changes, Client
from .flow import ENDLESS, Event, Flow
from .keep import Kept
from .presence import Presence

PATIENCE = 120.0  # seconds without a message while an answer is awaited
CLOSING = 1.0  # seconds for each step of closing a connection; then it counts as ended, if the server doesn't end it


class LinkEnded(Exception):
    """The link has ended, for the reason in words."""


def _websockets() -> Any:
    for name in ("websockets.asyncio.client", "websockets.client"):  # the second is that before version 13
        try:
            return importlib.import_module(name)
        except ImportError:
            continue
    raise LinkEnded("Link needs the package `websockets`: pip install lugcurrant[link], or Debian's python3-websockets")


class Link:
    """Joins a client to a server. It runs in `async with`, or by `run`. The client may be edited at any time, online or not; edits are sent by
    themselves. `document` is the identity where it is known, or False to go without the guard; `follow` begins anew where the server has another
    document; `kept` keeps the client before an edit is sent.

    The link has the `client`, the server's `url` with a slash at its end, its `state` and why in `words`, the `document` once it is known, and the
    `presence` of this client and the others.

    The callbacks are called in the event loop: `state` with the link if its state or words are others, `changed` with True after own edits and with
    False after a message of the server, `refused` with the `number`, `edit`, `id`, `name` and `words` of an edit that the server refused, `anew` with
    `made`, `lost`, `unsure` and `ids` after the client has become another one, `presence` with the id of another client and what it shows of itself,
    None for nothing any more. A lost connection is made again after `retry` seconds, then after twice
    as long, up to `most_retry`; one without a message for `patience` seconds, while an answer is awaited, is given up. The rest is passed to `Flow`."""

    def __init__(self, client: Client, url: str = "ws://127.0.0.1:7411/", *, document: str | bool | None = None, follow: bool = False, kept: Kept | None = None,
                 state: Callable[["Link"], None] | None = None, changed: Callable[[bool], None] | None = None,
                 refused: Callable[[dict[str, Any]], None] | None = None, anew: Callable[[dict[str, Any]], None] | None = None,
                 presence: Callable[[int, Any], None] | None = None,
                 retry: float = 0.3, most_retry: float = 10.0, patience: float = PATIENCE, **flow: Any) -> None:  # fmt: skip
        self.client = client
        self.url = url if urlsplit(url).path.endswith("/") else url + "/"
        self.state = State.CONNECTING
        self.words = ""
        self.document: str | None = document if isinstance(document, str) else None
        self._guards = document is not False
        self._told_identity = False
        self._follows = follow
        self._kept = kept
        self._kept_to = 0
        self._callbacks = (state, changed, refused, anew)
        self._retry, self._most_retry, self._patience = retry, most_retry, patience
        self._flow = Flow(client, **flow)
        self.presence = Presence(self._show, presence or (lambda client, value: None))
        if kept:
            self._flow.limit = 0
        self._offline = self._closed = False
        self._dropped = False  # the connection ends for `offline`, even if that is False again by then
        self._wake = asyncio.Event()  # something is to be sent
        self._moved = asyncio.Event()  # the program wants another state
        self._turned = asyncio.Condition()
        self._tick = 0
        self._caught_up = False
        self._own = False
        self._over = False
        self._task: asyncio.Task[None] | None = None
        self._unwatch = client.watch(self._watched)

    # What a program asks and wants.

    @property
    def unsent(self) -> int:
        """How many edits the server hasn't said to have."""
        return self._flow.unsent

    @property
    def is_losing(self) -> bool:
        """Whether edits would be lost if the program ended now."""
        return self.unsent > 0 and not (self._kept is not None and self._kept.is_keeping and self.client.last_edit <= self._kept_to)

    @property
    def offline(self) -> bool:
        """Whether the program wants no connection; edits wait then."""
        return self._offline

    @offline.setter
    def offline(self, value: bool) -> None:
        self._offline = value
        if value and not self._closed and self.state not in FINAL_STATES:
            self._dropped = True
            self.presence._lost()
            self._tell(State.OFFLINE)
        self._moved.set()
        self._wake.set()

    def wake(self) -> None:
        """Asks at once, whatever the pause is. After edits it needn't be called."""
        self._flow.wake(time.monotonic())
        self._wake.set()

    def close(self) -> None:
        """Ends the link. What waits in the client stays there."""
        self._closed = True
        self._moved.set()
        self._wake.set()

    async def ready(self) -> None:
        """Waits until the client has an id, and has heard what there is."""
        await self._until(lambda: self._caught_up)

    async def settled(self) -> None:
        """Waits until nothing waits, and what there is was heard."""
        self.wake()
        await self._until(lambda: self._flow.is_settled)

    async def finish(self, seconds: float = 5.0) -> bool:
        """Closes it when the server has all edits, or after so many seconds; whether it has them."""
        try:
            await asyncio.wait_for(self.settled(), seconds)
        except (asyncio.TimeoutError, LinkEnded):
            pass
        done = self.unsent == 0
        self.close()
        return done

    async def changes(self) -> AsyncIterator[Changes]:
        """The changes of the tree, until the link ends."""
        while True:
            tick = self._tick
            changes = self.client.changed()
            if changes:
                yield changes
                continue
            if self._over:
                return
            try:
                await self._until(lambda: self._tick != tick)
            except LinkEnded:
                return

    async def __aenter__(self) -> "Link":
        self._task = asyncio.create_task(self.run())
        await self.ready()
        return self

    async def __aexit__(self, kind: type[BaseException] | None, fault: BaseException | None, trace: TracebackType | None) -> None:
        if kind is None:
            await self.finish()
        self.close()
        if self._task:
            await self._task

    async def _until(self, holds: Callable[[], bool]) -> None:
        async with self._turned:
            await self._turned.wait_for(lambda: holds() or self._over)
        if not holds():
            raise LinkEnded(f"the link has ended: {self.words or self.state.value}")

    async def _turn(self) -> None:
        async with self._turned:
            self._turned.notify_all()

    # The connection.

    async def run(self) -> None:
        """Runs until it is closed or cancelled, or can't go on."""
        try:
            client = _websockets()
            retry = self._retry
            while not self._closed and self.state not in FINAL_STATES:
                self._moved.clear()
                if self._offline:
                    await self._turn()
                    await self._moved.wait()
                    continue
                if await self._connect(client):
                    retry = self._retry
                if self._closed or self._offline or self.state in FINAL_STATES:
                    continue
                await self._turn()
                try:
                    await asyncio.wait_for(self._moved.wait(), retry * random.uniform(0.75, 1.25))
                except asyncio.TimeoutError:
                    pass
                retry = min(2 * retry, self._most_retry)
        except LinkEnded as fault:
            self._tell(State.FAULT, str(fault))
        finally:
            self._unwatch()
            self._flow.lost()
            if self.state not in FINAL_STATES:
                self._tell(State.CLOSED)
            self._over = True
            await self._turn()

    async def _get(self, path: str) -> tuple[int, str]:
        """The status and the text of the server's answer to a GET of this path below its own; 0 where there is none."""
        at = urlsplit(urljoin(self.url, path))
        url = urlunsplit(("https" if at.scheme in ("wss", "https") else "http", *at[1:]))

        def get() -> tuple[int, str]:
            try:
                with urllib.request.build_opener(urllib.request.ProxyHandler({})).open(url, timeout=max(3.0, self._retry)) as answer:
                    return answer.status, answer.read(4096).decode(errors="replace").strip()
            except urllib.error.HTTPError as fault:
                return fault.code, ""
            except (OSError, ValueError, http.client.HTTPException):
                return 0, ""

        return await asyncio.to_thread(get)

    async def _guard(self) -> bool:
        """Whether it may connect: the server has the very document of which the client has heard, or the guard isn't wanted."""
        if not self._guards:
            return True
        status, text = await self._get("document")
        if not status:
            return False
        if len(text) != 32 or set(text) - set("0123456789abcdef"):
            return not self._told_identity  # a server without identities, or one that is away behind a proxy
        if self.document and self.document != text:
            if not self._follows:
                self._tell(State.ANOTHER_DOCUMENT)
                return False
            self._flow.anew = None
            self._flow.begin_anew(State.STRANGER, scan=True)
            self._take_events()
        self.document = text
        self._told_identity = True
        return True

    async def _connect(self, client: Any) -> bool:
        """Connects, and talks until the connection ends. Whether that went well, so that another one may be tried soon."""
        if not await self._guard():
            if self.state not in FINAL_STATES:
                self._tell(State.NO_SERVER)
            return False
        url = urljoin(self.url, f"document/{self.document}") if self.document else self.url
        try:
            socket = await client.connect(url, compression=None, max_size=None, open_timeout=10, close_timeout=CLOSING)
        except Exception as fault:  # each version has errors of its own for a handshake that is refused
            seats = self._guards and (await self._get("health"))[0] == 200
            self._tell(State.NO_SEAT if seats else State.NO_SERVER, "" if seats else f"{SENTENCES[State.NO_SERVER]} ({fault})")
            return False
        try:
            return await self._talk(socket)
        finally:
            with contextlib.suppress(Exception):  # a connection that is lost while it is closed
                await socket.close()

    async def _talk(self, socket: Any) -> bool:
        """One task reads whatever comes, the other one sends: so neither waits for the other, whatever is in the buffers."""
        flow = self._flow
        flow.state = State.CONNECTING
        flow.open(time.monotonic())
        self._dropped = self._offline
        was_online = False
        words = "the connection has ended; it is tried again"
        heard_at = time.monotonic()

        async def read() -> None:
            nonlocal was_online, heard_at
            async for message in socket:
                if self._dropped:
                    return
                heard_at = time.monotonic()
                flow.hear(message if isinstance(message, bytes) else message.encode(), heard_at)
                was_online = was_online or flow.state is State.ONLINE
                if self._take_events():
                    await self._turn()
                if flow.state is State.FAULT:
                    return
                self._wake.set()

        reader = asyncio.create_task(read())
        try:
            while not reader.done() and not self._closed and not self._dropped:
                self._wake.clear()
                self._keep()
                if self._own:
                    self._own = False
                    self._change(True)
                    await self._turn()
                for message in flow.outgoing(time.monotonic()):
                    await socket.send(message)
                due = flow.due(time.monotonic())
                wait = self._patience if due is None else due
                waker = asyncio.ensure_future(self._wake.wait())
                await asyncio.wait({reader, waker}, timeout=wait, return_when=asyncio.FIRST_COMPLETED)
                waker.cancel()
                if flow.fifo and time.monotonic() - heard_at > self._patience:
                    break
        except Exception as fault:  # the connection is lost
            words = f"the connection has ended ({type(fault).__name__}); it is tried again"
        finally:
            reader.cancel()
            await asyncio.gather(reader, return_exceptions=True)
            flow.lost()
            self.presence._lost()
        if self.state in (State.ONLINE, State.CONNECTING) and not self._closed:
            self._tell(State.NO_SERVER, words)
        return was_online

    # What comes of it.

    def _watched(self, what: str, message: bytes | None) -> None:
        if what == "edit":
            self._own = True
            self._wake.set()

    def _show(self, value: str) -> None:
        self._flow.show(value)
        self._wake.set()

    def _keep(self) -> None:
        """An edit is sent once it is kept."""
        if self._kept is None:
            return
        if self._kept.is_keeping and self.client.last_edit > self._kept_to:
            self._kept.flush()
            self._kept_to = self.client.last_edit
        self._flow.limit = self._kept_to if self._kept.is_keeping else ENDLESS

    def _take_events(self) -> bool:
        """Tells what came of a message. Whether somebody may wait for it."""
        events, self._flow.events = self._flow.events, []
        took = False
        for event in events:
            took = self._take_event(event) or took
        if took:
            self._change(False)
        return any(event.type != "here" for event in events)

    def _take_event(self, event: Event) -> bool:
        if event.type == "state":
            self._tell(event.detail["state"], event.detail["words"])
        elif event.type == "refused":
            if "change" in event.detail:
                self._kept_to = self.client.acknowledged
            if self._callbacks[2]:
                self._callbacks[2](event.detail)
        elif event.type == "anew":
            self._kept_to = 0
            if self._callbacks[3]:
                self._callbacks[3](event.detail)
        elif event.type == "caught up":
            self._caught_up = True
        elif event.type == "here":
            self.presence._heard(event.detail["client"], event.detail["value"])
        return event.type in ("took", "anew") or "change" in event.detail

    def _change(self, own: bool) -> None:
        self._tick += 1
        if self._callbacks[1]:
            self._callbacks[1](own)

    def _tell(self, state: State, words: str = "") -> None:
        if self._offline and state not in FINAL_STATES:
            state = State.OFFLINE  # what was under way isn't reported
        quiet = state in (State.ONLINE, State.OFFLINE, State.CONNECTING)
        words = "" if quiet else words or SENTENCES[state]
        if (self.state, self.words) == (state, words):
            return
        self.state, self.words = state, words
        if self._callbacks[0]:
            self._callbacks[0](self)
