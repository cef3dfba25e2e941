"""Written by packages/generate out of api.json: change that."""

import ctypes
from enum import Enum
from typing import Any

VERSION = "0.1.0"

KINDS: dict[str, int] = {"page": 1, "frame": 2, "shape": 3, "text": 4}

DONE = 0
NOT_OPEN = 1
NOT_SHOWN = 2
PARENT_NOT_SHOWN = 3
BAD_PARENT = 4
OWN_DESCENDANT = 5
CROWDED = 6
IS_ROOT = 7
IDS_SPENT = 8
FULL = 9
MEMORY = 10
TOO_DEEP = 11
TAKEN = 12
NO_CLIENT = 20
HELD = 21
NONE = 22
NO_ROOM = 23
NO_KIND = 24
NAME_EMPTY = 30
NAME_TOO_LONG = 31
NAME_BAD_BYTE = 32
POSITION_EMPTY = 33
POSITION_TOO_LONG = 34
POSITION_BAD_BYTE = 35
POSITION_TRAILING_ZERO = 36
NOT_JSON = 40
NOT_A_VALUE = 41
NOT_A_MESSAGE = 42
OUT_OF_RANGE = 43
VALUE_TOO_DEEP = 44
NOT_A_CLIENT = 45
INCONSISTENT = 46
NOT_AN_EDIT = 47
NOT_OWN = 48
GAP = 49
TOOK = 50
OLD = 51
AHEAD = 52
NOT_FOR_ME = 53
IDLE = 54
NO = 60

FAULTS: dict[int, tuple[str, str]] = {
    1: ("NotOpen", "the server has not given this client an id yet"),
    2: ("NotShown", "the object is not shown any more"),
    3: ("ParentNotShown", "what it would stand in is not shown any more"),
    4: ("BadParent", "such an object may not stand there"),
    5: ("OwnDescendant", "an object can not stand in itself"),
    6: ("Crowded", "there is no room left at this place"),
    7: ("IsRoot", "the document itself can not be moved or deleted"),
    8: ("IdsSpent", "this client can create no more objects"),
    9: ("Full", "this client can make no more edits"),
    10: ("Memory", "there is no memory left"),
    11: ("TooDeep", "objects stand at most 100 deep"),
    12: ("Taken", "another object has this position"),
    20: ("NoClient", "this client was freed"),
    21: ("Held", "the handle holds a client already"),
    23: ("NoRoom", "the room is smaller than the bytes"),
    24: ("NoKind", "an object is a page, a frame, a shape or a text"),
    30: ("NameEmpty", "the name of a property is empty"),
    31: ("NameTooLong", "the name of a property has more than 32 bytes"),
    32: ("NameBadByte", "the name of a property is of a to z, 0 to 9 and _"),
    33: ("PositionEmpty", "a position is empty"),
    34: ("PositionTooLong", "a position has more than 128 bytes"),
    35: ("PositionBadByte", "a position is of the bytes from space to ~"),
    36: ("PositionTrailingZero", "a position does not end in a space"),
    40: ("NotJson", "this is no JSON"),
    41: ("NotAValue", "this is no value of a property"),
    42: ("NotAMessage", "this is no message"),
    43: ("OutOfRange", "a number is out of its range"),
    44: ("ValueTooDeep", "lists stand at most 16 deep in one another"),
    45: ("NotAClient", "this is no saved client"),
    46: ("Inconsistent", "no client waits with these edits"),
    47: ("NotAnEdit", "this message is no edit"),
    48: ("NotOwn", "this edit is another client's"),
    49: ("Gap", "an edit before this one is missing"),
}
"""By its number why a call did nothing: a code, and a sentence."""

NO_REASONS: dict[int, tuple[str, str]] = {
    1: ("stranger", "the server does not know this client"),
    2: ("repeat", "the server has judged this edit already"),
    3: ("gap", "an edit before this one is missing"),
    4: ("full", "the server can take no more edits"),
    5: ("disk failed", "the server's disk failed"),
    6: ("disk failed before", "the server's disk failed before"),
    7: ("no memory", "the server has no memory for this now"),
    8: ("too large", "the edit is too large for the server"),
    9: ("unreadable", "the server can not read what was sent"),
}
"""By its number the reason of a No: a name, and a sentence."""

REFUSALS: dict[int, tuple[str, str]] = {
    1: ("IsRoot", "the document itself can not be moved or deleted"),
    2: ("BadId", "the id was used before"),
    3: ("Gone", "the object was deleted meanwhile"),
    4: ("ParentGone", "what it would stand in was deleted meanwhile"),
    5: ("BadParent", "such an object may not stand there"),
    6: ("Cycle", "somebody moved the other one into it first"),
    7: ("Crowded", "there is no room left at this place"),
    8: ("TooDeep", "objects stand at most 100 deep"),
}
"""By its number why the server refused an edit: a name, and a sentence."""


class What(Enum):
    """What a client did with a message, or which end of an answer it heard."""

    TOOK = 50
    OLD = 51
    AHEAD = 52
    NOT_FOR_ME = 53
    IDLE = 54
    NO = 60


class State(Enum):
    """Where a link stands."""

    CONNECTING = "connecting"
    ONLINE = "online"
    OFFLINE = "offline"
    NO_SERVER = "no server"
    NO_SEAT = "no seat"
    REPLACED = "replaced"
    STRANGER = "stranger"
    TOO_LARGE = "too large"
    UNREADABLE = "unreadable"
    FULL = "full"
    DISK_FAILED = "disk failed"
    DISK_FAILED_BEFORE = "disk failed before"
    NO_MEMORY = "no memory"
    ANOTHER_DOCUMENT = "another document"
    UNGUARDED = "unguarded"
    FAULT = "fault"
    CLOSED = "closed"


SENTENCES: dict[State, str] = {
    State("connecting"): "it connects, or waits for its first answer",
    State("online"): "the server answers",
    State("offline"): "the program wants no connection; edits wait",
    State("no server"): "no server answers; it is tried again",
    State("no seat"): "every seat of the server is taken; it is tried again",
    State("replaced"): "another program uses this id; it begins anew, and makes again what waits",
    State("stranger"): "the server has another history; it begins anew, and makes again what waits",
    State("too large"): "an edit is too large for the server; one that changes nothing takes its number",
    State("unreadable"): "the server can not read an edit; one that changes nothing takes its number",
    State("full"): "the server can take no more edits; others are heard",
    State("disk failed"): "the server's disk failed; what waits is sent again",
    State("disk failed before"): "the server's disk failed before; what waits is sent again",
    State("no memory"): "the server has no memory for this now; it is sent again",
    State("another document"): "the server has another document now; begin anew with it",
    State("unguarded"): "the identity of the document can not be read from here (CORS): give `document`, or false to go on without the guard",
    State("fault"): "the server broke the protocol, or the client has no memory left",
    State("closed"): "the program closed the link",
}

FINAL_STATES: frozenset[State] = frozenset({State("another document"), State("unguarded"), State("fault"), State("closed")})


class Handle(ctypes.Structure):
    """What the library holds of a client: zero at first."""

    _fields_ = [("at", ctypes.c_void_p), ("mark", ctypes.c_uint64)]


class MadeId(ctypes.Structure):
    """The id of an object that was created: `client` and `counter`."""

    _fields_ = [("client", ctypes.c_uint32), ("counter", ctypes.c_uint32)]
    client: int
    counter: int


_N, _L, _S, _B, _V, _M = ctypes.c_uint32, ctypes.c_uint64, ctypes.c_size_t, ctypes.c_char_p, ctypes.c_void_p, ctypes.POINTER(MadeId)

# Each call's result, and what it takes after the handle.
CALLS: dict[str, tuple[Any, list[Any]]] = {
    "new": (_N, []),
    "load": (_N, [_B, _S]),
    "free": (_N, []),
    "id": (_N, []),
    "version": (_L, []),
    "acknowledged": (_L, []),
    "waiting": (_L, []),
    "receive": (_N, [_B, _S]),
    "receive_and_tell": (_N, [_B, _S]),
    "resume": (_N, [_B, _S]),
    "create": (_N, [_N, _N, _N, _N, _N, _M]),
    "create_at": (_N, [_N, _N, _N, _B, _S, _M]),
    "create_last": (_N, [_N, _N, _N, _M]),
    "create_first": (_N, [_N, _N, _N, _M]),
    "set": (_N, [_N, _N, _B, _S, _B, _S]),
    "clear": (_N, [_N, _N, _B, _S]),
    "move": (_N, [_N, _N, _N, _N, _N, _N]),
    "move_at": (_N, [_N, _N, _N, _N, _B, _S]),
    "move_last": (_N, [_N, _N, _N, _N]),
    "move_first": (_N, [_N, _N, _N, _N]),
    "delete": (_N, [_N, _N]),
    "join": (_N, []),
    "ask": (_N, []),
    "edit": (_N, [_L]),
    "tree": (_N, []),
    "object": (_N, [_N, _N]),
    "children": (_N, [_N, _N]),
    "in_tree": (_N, [_N, _N]),
    "save": (_N, []),
    "length": (_S, []),
    "read": (_N, [_V, _S]),
}
