"""The flow for C, compiled from its sources, with the methods of the flow for Python."""

import ctypes
import json
import os
import subprocess
import sys
import tempfile
from pathlib import Path

HERE = Path(__file__).resolve().parent
PACKAGES = HERE.parents[1]
sys.path.insert(0, str(PACKAGES / "python/src"))

from lugcurrant import Event, ObjectId, State  # noqa: E402
from lugcurrant._api import FAULTS, NO_REASONS, REFUSALS, Handle  # noqa: E402

DONE, MEMORY, NONE, NO = 0, 10, 22, 60
STATES = list(State)
COUNTED = ["malloc=counting_malloc", "free=counting_free", "lugcurrant_new=counting_client_new", "lugcurrant_load=counting_client_load", "lugcurrant_free=counting_client_free"]

_N, _L, _D, _S, _P, _B = ctypes.c_uint32, ctypes.c_uint64, ctypes.c_double, ctypes.c_size_t, ctypes.c_void_p, ctypes.c_char_p


class Id(ctypes.Structure):
    _fields_ = [("client", _N), ("counter", _N)]

    def id(self):
        return ObjectId(self.client, self.counter)


class Options(ctypes.Structure):
    _fields_ = [("window", _N), ("window_bytes", _S), ("asks", _N), ("most_asks", _N), ("least_pause", _D), ("most_pause", _D), ("beat", _D)]


class Edit(ctypes.Structure):
    _fields_ = [("change", _B), ("length", _S), ("code", _N)]

    def text(self):
        assert len(self.change) == self.length, "a zero stands after the change"
        return self.change.decode()

    def reason(self):
        return (FAULTS.get(self.code) or NO_REASONS[self.code - NO])[0]


class NewId(ctypes.Structure):
    _fields_ = [("was", Id), ("now", Id)]


class Other(ctypes.Structure):
    _fields_ = [("client", _N), ("value", _B), ("length", _S)]


def value_of(text, length):
    """What this JSON says."""
    assert len(text) == length, "a zero stands after the value"
    return json.loads(text.decode())


class CEvent(ctypes.Structure):
    _fields_ = [("type", _N), ("state", _N), ("words", _B), ("version", _L), ("number", _L), ("edit", _B), ("id", Id), ("reason", _N),
                ("made", _L), ("lost", ctypes.POINTER(Edit)), ("lost_count", _S), ("unsure", ctypes.POINTER(Edit)), ("unsure_count", _S), ("ids", ctypes.POINTER(NewId)), ("ids_count", _S),
                ("client", _N), ("value", _B), ("value_length", _S)]  # fmt: skip

    def event(self):
        """The same event as the flow for Python has it."""
        if self.type == 1:
            return Event("state", {"state": STATES[self.state], "words": self.words.decode()})
        if self.type == 3:
            name, words = REFUSALS.get(self.reason) or NO_REASONS[self.reason - NO]
            told = {"version": self.version, "number": self.number, "edit": self.edit.decode(), "id": self.id.id(), "name": name, "words": words}
            return Event("refused", told | {"change": self.lost[0].text()} if self.lost_count else told)
        if self.type == 4:
            lost = [(self.lost[k].text(), self.lost[k].reason()) for k in range(self.lost_count)]
            unsure = [self.unsure[k].text() for k in range(self.unsure_count)]
            return Event("anew", {"made": self.made, "lost": lost, "unsure": unsure, "ids": {self.ids[k].was.id(): self.ids[k].now.id() for k in range(self.ids_count)}})
        return Event({2: "took", 5: "caught up"}[self.type])


def compiled(room, mode):
    """The flow's shared object in this folder."""
    library = os.path.realpath(os.environ.get("LUGCURRANT_LIBRARY", PACKAGES / "c/liblugcurrant.so"))
    os.environ["LUGCURRANT_LIBRARY"] = library
    build = ["cc", "-std=c11", "-Wall", "-Wextra", "-Werror", "-g", "-O1", "-fPIC", "-I", str(PACKAGES / "c/include")]
    extra = {"--memory": [f"-D{it}" for it in COUNTED], "--sanitize": ["-fsanitize=address,undefined", "-fno-sanitize-recover=all"]}.get(mode, [])
    parts = []
    for source in sorted((PACKAGES / "c/src").glob("*.c")):
        parts.append(f"{room}/{source.stem}.o")
        subprocess.run([*build, *extra, "-c", str(source), "-o", parts[-1]], check=True)
    if mode == "--memory":
        parts.append(str(HERE / "failing.c"))
    flags = extra if mode == "--sanitize" else []
    subprocess.run([*build, *flags, "-shared", "-o", f"{room}/flow.so", *parts, library], check=True)
    return f"{room}/flow.so"


def loaded(path):
    calls = ctypes.CDLL(path)
    for name, result, takes in [
        ("new", _P, [ctypes.POINTER(Handle), ctypes.POINTER(Options)]), ("free", None, []), ("open", None, [_D]), ("lost", None, []), ("wake", None, [_D]),
        ("next_outgoing", _N, [_D, ctypes.POINTER(_P), ctypes.POINTER(_S)]), ("due", _D, [_D]), ("hear", _N, [_B, _S, _D]),
        ("next_event", _N, [ctypes.POINTER(CEvent)]), ("state", _N, []), ("unsent", _L, []), ("is_settled", ctypes.c_bool, []),
        ("unanswered", _S, []), ("set_limit", None, [_L]), ("saved", None, []), ("begin_anew", _N, []),
        ("presence_set", _N, [_B, _S]), ("presence_others", _S, [ctypes.POINTER(ctypes.POINTER(Other))]),
    ]:  # fmt: skip
        call = getattr(calls, "lugcurrant_flow_" + name)
        call.restype, call.argtypes = result, takes if name == "new" else [_P, *takes]
        if hasattr(calls, "failing_" + name):
            failing = getattr(calls, "failing_" + name)
            failing.restype, failing.argtypes = result, [ctypes.c_long, *call.argtypes]
    return calls


class Flow:
    """The flow for C, with the methods of the one for Python. Times are in milliseconds. `changes` has what was told of the other clients, and `others`
    what they show."""

    failures = 0
    all = []

    def __init__(self, calls, client, **options):
        self.calls, self.client, self.events, self.changes, self.at = calls, client, [], [], None
        self._call("new", client._handle, Options(**options), failed=lambda at: at is None)
        self.all.append(self)
        self.save, client.save = client.save, self._save

    def _call(self, name, *args, failed=lambda number: number == MEMORY):
        """Calls the function; with a library for that, each of its allocations fails once before."""
        first = [] if self.at is None else [self.at]
        after, is_whole = 0, Flow.failures % 16 < 4
        before = self._seen(is_whole) if hasattr(self.calls, "failing_" + name) else None
        while before is not None:
            found = getattr(self.calls, "failing_" + name)(after, *first, *args)
            if not failed(found):
                break
            assert self._seen(is_whole) == before, f"{name} without memory has changed something"
            Flow.failures += 1
            after += 1
        else:
            found = getattr(self.calls, "lugcurrant_flow_" + name)(*first, *args)
        assert not failed(found), f"{name} answered {found}"
        if name == "new":
            self.at = found
        return found

    def _seen(self, is_whole):
        """What calls show of the flow and its client; of the client all, if this is to be whole."""
        client, at = self.client, self.at
        seen = [client.version, client.acknowledged, client.waiting, client.id]
        if at is not None:
            self._take_events()
            seen += [self.unsent, self.is_settled, self.state, self.calls.lugcurrant_flow_unanswered(at), self.due(0), len(self.events), len(self.changes)]
            seen += [self.others]
        return [*seen, (self.save if at else client.save)()] if is_whole else seen

    def _save(self):
        """The client's `save`, of which the flow is told."""
        saved = self.save()
        self.calls.lugcurrant_flow_saved(self.at)
        return saved

    def _take_events(self):
        event = CEvent()
        while self.calls.lugcurrant_flow_next_event(self.at, event) == DONE:
            if event.type == 6:
                self.changes.append([event.client, None if event.value is None else value_of(event.value, event.value_length)])
            else:
                self.events.append(event.event())

    def free(self):
        self.calls.lugcurrant_flow_free(self.at)

    def open(self, now):
        self.calls.lugcurrant_flow_open(self.at, now)
        self._take_events()

    def lost(self):
        self.calls.lugcurrant_flow_lost(self.at)
        self._take_events()

    def show(self, text):
        assert self.presence_set(text.encode()) == DONE, text

    def presence_set(self, value):
        return self._call("presence_set", value, len(value))

    @property
    def others(self):
        at = ctypes.POINTER(Other)()
        count = self.calls.lugcurrant_flow_presence_others(self.at, at)
        assert bool(at) == (count > 0)
        found = {at[k].client: value_of(at[k].value, at[k].length) for k in range(count)}
        assert len(found) == count and list(found) == sorted(found), "each client once, by their ids"
        return found

    def wake(self, now):
        self.calls.lugcurrant_flow_wake(self.at, now)

    def outgoing(self, now):
        out, bytes, length = [], _P(), _S()
        while self._call("next_outgoing", now, bytes, length) == DONE:
            out.append(ctypes.string_at(bytes.value, length.value))
        return out

    def due(self, now):
        wait = self.calls.lugcurrant_flow_due(self.at, now)
        return None if wait < 0 else wait

    def hear(self, message, now):
        self._call("hear", message, len(message), now)
        self._take_events()

    def begin_anew(self, state, scan):
        """It forgets what was begun anew before: the trace says so before each call."""
        assert (state, scan) == (State.STRANGER, True)
        self._call("begin_anew")
        self._take_events()

    @property
    def unsent(self):
        return self.calls.lugcurrant_flow_unsent(self.at)

    @property
    def is_settled(self):
        return self.calls.lugcurrant_flow_is_settled(self.at)

    @property
    def state(self):
        return STATES[self.calls.lugcurrant_flow_state(self.at)]


def run(mode, program, words, act):
    """Gives `act` the calls of a flow that was compiled for this mode: "", or "--memory" or "--sanitize", for which the program is started again
    with what must be loaded before the C library. The status of the program."""
    if os.environ.get("FLOW_LIBRARY"):
        return act(loaded(os.environ["FLOW_LIBRARY"]))
    with tempfile.TemporaryDirectory() as room:
        path = compiled(room, mode)
        if not mode:
            return act(loaded(path))
        first = [path]
        if mode == "--sanitize":
            first = [subprocess.run(["cc", f"-print-file-name={it}"], capture_output=True, text=True, check=True).stdout.strip() for it in ("libasan.so", "libubsan.so")]
        variables = dict(os.environ, FLOW_LIBRARY=path, LD_PRELOAD=" ".join(first), ASAN_OPTIONS="detect_leaks=0")
        return subprocess.run([sys.executable, program, *words], env=variables).returncode
