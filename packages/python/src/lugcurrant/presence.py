"""What the clients of a document show of themselves while they are connected: cursors, names, what is chosen. Nothing of it is kept. When it is sent and
what is heard stands in flow.py."""

import json
from types import MappingProxyType
from typing import Any, Callable, Mapping

MOST_BYTES, DEEPEST = 1024, 100


class Presence:
    """What this client shows the others, and they show: `presence` of a link."""

    def __init__(self, show: Callable[[str], None], tell: Callable[[int, Any], None]) -> None:
        self._show, self._tell = show, tell
        self._known: dict[int, Any] = {}
        self._others: Mapping[int, Any] | None = None

    @property
    def others(self) -> Mapping[int, Any]:
        """What the others show, by the ids of their clients: a mapping that stays as it is. It is empty without a connection, and with an older
        server. Other programs may show any JSON."""
        if self._others is None:
            self._others = MappingProxyType(dict(self._known))
        return self._others

    def set(self, value: Any) -> None:
        """Shows the others this value, JSON of at most 1,024 bytes, in place of the last one; None for nothing. It is sent once the link has caught
        up, at most 30 times a second, the last one always, and again on each later connection. Raises TypeError or ValueError if the value is no
        JSON, and ValueError if it is too large, or lists and objects in it are more than 100 deep."""
        self._show(_json_of(value))

    def _heard(self, client: int, value: Any) -> None:
        """A client shows this now, or nothing any more if it is None."""
        if value is None and client not in self._known:
            return
        if value is None:
            del self._known[client]
        else:
            self._known[client] = value
        self._others = None
        self._tell(client, value)

    def _lost(self) -> None:
        """The connection is lost, and nobody is known to be there."""
        gone, self._known, self._others = list(self._known), {}, None
        for client in gone:
            self._tell(client, None)


def _json_of(value: Any) -> str:
    """The JSON of a value, if a server takes it."""
    try:
        text = json.dumps(value, allow_nan=False, ensure_ascii=False, separators=(",", ":"))
    except RecursionError:
        raise ValueError(f"cannot show the value: it is nested deeper than {DEEPEST}") from None
    length = len(text.encode())
    if length > MOST_BYTES:
        raise ValueError(f"cannot show the value: its JSON has {length} bytes, and at most {MOST_BYTES} are allowed")
    if _depth_of(json.loads(text)) > DEEPEST:
        raise ValueError(f"cannot show the value: it is nested deeper than {DEEPEST}")
    return text


def _depth_of(value: Any) -> int:
    """How deep lists and objects are nested in a value."""
    depth, level = 0, [value]
    while level := [it for it in level if isinstance(it, (list, dict))]:
        depth += 1
        level = [part for it in level for part in (it.values() if isinstance(it, dict) else it)]
    return depth
