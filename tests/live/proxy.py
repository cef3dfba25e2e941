"""A TCP proxy that cuts connections."""

import asyncio
import contextlib
import socket
import struct

PARTS = (100, 2000, 65536)  # bytes per read
MOST_AFTERWARDS = 0.3  # seconds for which one direction may continue after the other one was cut
RESET = struct.pack("ii", 1, 0)  # SO_LINGER: close discards unsent bytes and sends a reset


class Proxy:
    """Forwards connections to a port of the loopback, and cuts each one after a random number of bytes, `mean` on average over both directions. The cut
    may be within a frame. The direction that reaches it forwards nothing more; the other one may continue for a moment, so the server judges edits
    whose answers are lost. Then each side is closed or reset. If `is_calm` is set, no connection is cut."""

    def __init__(self, dice, target, mean):
        self.dice, self.target, self.mean = dice, target, mean
        self.is_calm, self.cuts, self.port = False, 0, 0
        self._server, self._tasks = None, set()

    async def begin(self):
        """Listens on a free port."""
        self._server = await asyncio.start_server(self._serve, "127.0.0.1", 0)
        self.port = self._server.sockets[0].getsockname()[1]

    async def end(self):
        """Ends all connections."""
        self._server.close()
        for task in self._tasks:
            task.cancel()
        await asyncio.gather(*self._tasks, return_exceptions=True)

    async def _serve(self, reader, writer):
        self._tasks.add(task := asyncio.current_task())
        ends, is_cut = [(reader, writer)], False
        try:
            ends.append(await asyncio.open_connection("127.0.0.1", self.target))
            is_cut = await self._pass_both(*ends)
        except (OSError, asyncio.CancelledError):
            pass  # the server is down, or the proxy is being ended
        finally:
            self._tasks.discard(task)
            for _, end in ends:
                self._close(end, is_cut)

    async def _pass_both(self, client, server):
        """Forwards both directions until one of them ends. Returns whether the connection was cut."""
        left = [int(self.dice.expovariate(1 / self.mean)) + 1]
        ways = {asyncio.create_task(self._pass(left, client[0], server[1])), asyncio.create_task(self._pass(left, server[0], client[1]))}
        try:
            done, others = await asyncio.wait(ways, return_when=asyncio.FIRST_COMPLETED)
            is_cut = any(task.exception() is None and task.result() for task in done)
            self.cuts += is_cut
            left[0] = 1 << 62
            if others and (not is_cut or self.dice.random() < 0.5):
                await asyncio.wait(others, timeout=self.dice.uniform(0, MOST_AFTERWARDS))
            return is_cut
        finally:
            for task in ways:
                task.cancel()
            await asyncio.gather(*ways, return_exceptions=True)

    async def _pass(self, left, reader, writer):
        """Forwards one direction until it ends. Returns whether the connection must be cut."""
        while data := await reader.read(self.dice.choice(PARTS)):
            part = data if self.is_calm else data[: left[0]]
            left[0] -= len(part)
            writer.write(part)
            await writer.drain()
            if len(part) < len(data):
                return True
        with contextlib.suppress(OSError):
            writer.write_eof()
        return False

    def _close(self, writer, is_cut):
        if not is_cut or self.dice.random() < 0.5:
            writer.close()
            return
        with contextlib.suppress(OSError):
            writer.get_extra_info("socket").setsockopt(socket.SOL_SOCKET, socket.SO_LINGER, RESET)
        writer.transport.abort()
