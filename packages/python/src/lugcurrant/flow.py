"""What a link says and hears, without sockets and clocks: which messages to send next on the open connection, and what an answer means. The
same machine as js/src/flow.js, in which the reasons stand; both are tried against the same made-up servers. Times are in seconds here."""

import json
import re
from dataclasses import dataclass, field
from typing import Any

from ._api import NO_REASONS, REFUSALS, State, What
from .client import Client
from .library import ClientError
from .remake import change_of, is_shown, members, remake
from .values import ObjectId

_STATES = frozenset(state.value for state in State)

MOST_ENTRIES = 64
ENDLESS = 1 << 62
MOST_AHEAD = 4  # asks at once where a round trip's news fill more than one answer
MOST_WAIT = 10  # seconds before what a server couldn't keep is sent again
PROVEN, PROVEN_AFTER = 3, 2  # asks that must miss an edit that was answered, and for how long
MISSED_AFTER = 0.7  # seconds after which a live connection is asked for an edit that was answered and hasn't come
SHOWN_EVERY = 0.034  # seconds between two values that are shown: at most 30 a second
MOST_SHOWN = 16  # of them may be under way
OBSERVER = b'["client",[4294967295,0,0,0],[],[[[0,0],"document",null,[]]]]'  # a client of an id that no server gives
NEVER = float("inf")

_UNJUDGED = (3, 4, 8, 9)  # reasons of a No to an edit that wasn't judged
_HELD = (State.DISK_FAILED, State.DISK_FAILED_BEFORE, State.NO_MEMORY)


@dataclass
class Event:
    """What came of a message: its `type` is "took", "refused", "state", "anew", "caught up" or "here", and `detail` has what belongs to it."""

    type: str
    detail: dict[str, Any] = field(default_factory=dict)


@dataclass(eq=False)
class _Round:
    """The asks that are under way together: how many brought news, and whether an answer was full."""

    useful: int = 0
    full: bool = False


@dataclass(eq=False)
class _Sent:
    what: str
    size: int
    number: int = 0
    id: int | None = None
    first: bool = False
    start: int = 0
    at: float = 0.0
    last_judged: int = 0
    entries: int = 0
    took: bool = False
    ahead: bool = False
    copy: bool = False
    void: bool = False
    scan: bool = False
    counted: bool = False
    round: _Round = field(default_factory=_Round)


@dataclass
class _Anew:
    scans: bool = False  # whether the log is to be looked through
    start: int = 0
    looks: bool = False  # whether it is still to be
    client: Client = field(default_factory=Client)
    step: str = "join"
    found: dict[int, str] = field(default_factory=dict)
    done: int = 0
    asking: bool = False
    replaces: bool = False  # the client is an observer: it hears the document again, for an edit that is replaced


class Flow:
    """The state machine of a link. `outgoing` gives the messages to send, `due` the seconds after which it may have more, `hear` takes what
    came; `events` has what came of it, until the program takes it out.

    `client` is the client that it sends and hears for, `state` where the link stands, and `words` why. Up to `window` edits, or `window_bytes` of them,
    are under way at once, and `asks` asks, or `most_asks` while it catches up; `least_pause` and `most_pause` bound the seconds between two asks."""

    def __init__(self, client: Client, window: int = 64, window_bytes: int = 262144, asks: int = 4, most_asks: int = 32,
                 least_pause: float = 0.005, most_pause: float = 0.4, second: float = 1.0, beat: float | None = None) -> None:  # fmt: skip
        self.client = client
        self.second = second  # how much of the clock is a second
        self.window, self.window_bytes, self.asks, self.most_asks = window, window_bytes, asks, most_asks
        self.least_pause, self.most_pause = least_pause, most_pause
        self.beat = 20 * second if beat is None else beat  # without a message for so long, a live connection is tried by an ask
        self.limit = ENDLESS  # edits above this number aren't sent yet: they aren't kept
        self.judged = 0  # the greatest number of an edit that was answered by idle
        self.tried = client.last_edit  # the same of one that may have been judged without an answer: sent over a connection that was lost, or before
        self.state = State.CONNECTING
        self.words = ""
        self.fifo: list[_Sent] = []  # what is under way, in order
        self.anew: _Anew | None = None  # how far it is with beginning anew
        self.dropping = 0  # the reason of the No for which an edit must be replaced, or 0
        self.dropped = 0  # the number of that edit
        self.emptied = 0  # the number of the last one that was replaced
        self.shown: str | None = None  # the JSON of what the client shows of itself; None if it never did
        self.events: list[Event] = []
        self._reset()

    def _reset(self) -> None:
        for it in self.fifo:
            if it.what == "edit":
                self._may_be_judged(it.number)
        self.is_open = False
        self.fifo = []
        self.edits = self.bytes = self.asking = 0
        self.width, self.top = 1, 0
        self.round = _Round()
        self.ask_at, self.asked_at = 0.0, float("-inf")
        self.pause = self.least_pause
        self.hold_until, self.hold_for = 0.0, self.second
        self.sent = 0
        self.is_caught_up = False
        self.trip, self.lately = 0.0, 0
        self._missing: tuple[float, int] | None = None
        self.is_full = False
        self.is_live = False  # what is published comes unasked
        self.told: int | None = None  # the id for which it does: another one than the client's until the next `live` is answered
        self.live_at = 0.0  # when `live` may be sent; never while one is under way, or where the server has no such word
        self.is_older = False  # it has none
        self.is_showing = False  # what is shown is to be sent
        self.show_at = 0.0  # when it may be
        self.showing = 0  # how many values are under way
        self.has_here: bool | None = None  # whether the server has the word for it, once that is known

    def open(self, now: float) -> None:
        """A connection is open."""
        self._reset()
        self.is_open = True
        self.ask_at = now
        if self.anew:
            self.anew.asking = False

    def lost(self) -> None:
        """The connection is lost."""
        self._reset()

    def wake(self, now: float) -> None:
        """Something is to be sent, or heard: no pause is waited out."""
        if self.is_open and not self._is_told():
            self.ask_at = min(self.ask_at, now)
            self.pause = self.least_pause

    def show(self, value: str) -> None:
        """Shows the others this JSON on each live connection from now on."""
        self.shown = value
        self.is_showing = True

    @property
    def unsent(self) -> int:
        """How many edits the server hasn't said to have."""
        return max(0, self.client.last_edit - max(self.client.acknowledged, self.judged))

    @property
    def is_settled(self) -> bool:
        """Whether nothing waits, and what there is was heard."""
        return self.is_caught_up and self.anew is None and self.client.waiting == 0 and self.edits == 0

    # What to send.

    def outgoing(self, now: float) -> list[bytes]:
        """The messages to send now, in order."""
        out: list[bytes] = []
        if not self.is_open:
            return out
        if self.anew and self.anew.step == "scan":
            self._scan(out, now)
        elif self._hearer().id is None:
            if not self.fifo and now >= self.hold_until:
                self._push(out, self._hearer().join_message(), _Sent("join", 0))
        else:
            if self.anew is None and not self.is_full and not self.dropping:
                self._send_edits(out, now)
            self._live(out, now)
            self._show(out, now)
            self._ask(out, now)
        return out

    def due(self, now: float) -> float | None:
        """Seconds after which `outgoing` may have more, or None: then something must happen first."""
        if not self.is_open:
            return None
        if self.anew and self.anew.step == "scan":
            return None if self.anew.asking or self.fifo else max(0.0, self.hold_until - now)
        if self._hearer().id is None:
            return None if self.fifo else max(0.0, self.hold_until - now)
        waits = [self.ask_at - now] if self._may_ask() else []
        if self.hold_until > now and self.client.waiting:
            waits.append(self.hold_until - now)
        if self._may_live():
            waits.append(self.live_at - now)
        if self._may_show():
            waits.append(self.show_at - now)
        return max(0.0, min(waits)) if waits else None

    def _hearer(self) -> Client:
        return self.anew.client if self.anew else self.client

    def _push(self, out: list[bytes], message: bytes, sent: _Sent) -> None:
        sent.size = len(message)
        self.fifo.append(sent)
        out.append(message)

    def _send_edits(self, out: list[bytes], now: float) -> None:
        if now < self.hold_until:
            return
        known = self.client.acknowledged
        self.sent = max(self.sent, known)
        pushed = False
        while self.edits < self.window and self.sent < self.limit:
            message = self.client.edit_message(self.sent - known + 1)
            if message is None or (self.edits and self.bytes + len(message) > self.window_bytes):
                break
            self.sent += 1
            self.edits += 1
            self.bytes += len(message)
            self._push(out, message, _Sent("edit", 0, number=self.sent, first=self.sent == known + 1))
            pushed = True
        if pushed and not self._is_told():
            self.ask_at = now
            self.pause = self.least_pause

    def _may_live(self) -> bool:
        return self.is_caught_up and self.anew is None and not self.is_live and self.live_at < NEVER

    def _live(self, out: list[bytes], now: float) -> None:
        if not self._may_live() or now < self.live_at:
            return
        self.live_at = NEVER
        self.ask_at = now + self.beat
        self._push(out, f'["live",{self.client.id},{self.client.version}]'.encode(), _Sent("live", 0, id=self.client.id))

    def _may_show(self) -> bool:
        return self.is_showing and self.is_live and self.has_here is not False and self.showing < MOST_SHOWN

    def _show(self, out: list[bytes], now: float) -> None:
        if not self._may_show() or now < self.show_at:
            return
        self.is_showing = False
        self.show_at = now + SHOWN_EVERY * self.second
        self.showing += 1
        self._push(out, f'["here",{self.client.id},{self.shown}]'.encode(), _Sent("here", 0))

    def _is_told(self) -> bool:
        """Whether what is published comes unasked, or will once `live` is answered."""
        return self.anew is None and (self.is_live or (self.live_at == NEVER and not self.is_older))

    def _is_missing(self) -> bool:
        """Whether an edit was answered whose entry hasn't come."""
        return self.judged > self.client.acknowledged

    def _may_ask(self) -> bool:
        return self.asking < (self.width if self.width > 1 else self._steady())

    def _steady(self) -> int:
        """Asks under way one behind the other hear some news twice: few news an answer leave room for that."""
        return 1 if self.pause > 4 * self.least_pause else max(1, min(self.asks, MOST_ENTRIES // max(1, self.lately)))

    def _ask(self, out: list[bytes], now: float) -> None:
        client = self._hearer()
        while self._may_ask() and (now >= self.ask_at or (self.width > 1 and self.asking)):
            version = client.version
            if not self.asking:
                self.round = _Round()
            start = self.top if self.width > 1 and self.asking and self.top > version else version
            self.top = start + MOST_ENTRIES
            self.asking += 1
            self.asked_at = now
            asker = self.client if self.anew and self.anew.replaces else client
            self._push(out, _ask_text(asker.id, start), _Sent("ask", 0, start=start, at=now, last_judged=self.judged, counted=True, round=self.round))
            self.ask_at = now + (self.beat if self._is_told() else max(self.least_pause, self.trip / self._steady()))

    def _rest(self, now: float, nearer: bool = True) -> None:
        """On a live connection the next ask is far off, whenever a message comes; but where an edit was answered and its entry doesn't come, it is
        asked for."""
        if not self._is_told():
            return
        missing = self._is_missing()
        at = now + (MISSED_AFTER * self.second if missing else self.beat)
        self.ask_at = min(self.ask_at, at) if missing and not nearer else at

    # What is heard.

    def hear(self, message: bytes, now: float) -> None:
        """A message of the server. What came of it stands in `events`."""
        was_settled = self.is_settled
        self._hear(message, now)
        if self.is_live and not was_settled and self.is_settled:
            self.events.append(Event("caught up"))

    def _hear(self, message: bytes, now: float) -> None:
        letter = message[2:3]  # of ["welcome", ["entry", ["copy", ["idle"], ["no", ["here"
        if letter == b"h":
            return self._heard_here(message)
        is_part = letter in (b"e", b"c")
        head = self.fifo[0] if self.fifo else None
        if is_part and self.told is not None and (head is None or head.what != "ask"):
            return self._part_unasked(letter, message, now)
        if head is None:
            return self._fault("an answer came that nobody has asked for")
        if head.void or (self.anew and self.anew.step == "scan"):
            return self._pass(head, letter, message, now)
        if is_part:
            return self._part(head, letter, message, now)
        try:
            heard = self._hearer().receive(message)
        except (ClientError, MemoryError) as fault:
            return self._fault(str(fault) or "there is no memory left")
        self.fifo.pop(0)
        if heard.what is What.NO:
            return self._no(head, heard.reason, now)
        if head.what == "edit":
            self._judged_to(head, now)
        elif head.what == "ask":
            self._answered(head, now)
        elif head.what == "live":
            self._gone_live(head, now)
        elif head.what == "here":
            self._left(head)
            self.has_here = True
        else:
            self.events.append(Event("took"))
            self._online()
            self.ask_at = now
        return None

    def _part_unasked(self, letter: bytes, message: bytes, now: float) -> None:
        """An entry or a copy that comes unasked. Who begins anew asks for all by itself."""
        if self.anew is None:
            self._part(None, letter, message, now)

    def _part(self, head: _Sent | None, letter: bytes, message: bytes, now: float) -> None:
        """An entry or a copy: of the answer to `head`, or unasked where that is None."""
        anew, known = self.anew, self.client.acknowledged
        if letter == b"c" and anew is None and self._is_told_other():
            if head:
                head.ahead = True
            return None
        if letter == b"c" and anew is None and self._hides_twin(message):
            return self.begin_anew(State.REPLACED, scan=True)
        try:
            heard = self._hearer().receive(_seen_by_no_one(message) if letter == b"c" and anew and anew.replaces else message)
        except (ClientError, MemoryError) as fault:
            return self._fault(str(fault) or "there is no memory left")
        if head:
            head.entries += 1
            head.copy = head.copy or letter == b"c"
            head.took = head.took or heard.took
            head.ahead = head.ahead or heard.what is What.AHEAD
        elif heard.what is What.AHEAD:
            self._gap(now)
        if anew:
            self._part_anew(anew, letter, message, heard.took)
        elif heard.took:
            self.events.append(Event("took"))
            self._tell_refusal(message, letter)
        elif heard.what is What.NOT_FOR_ME:
            self._another(letter, message)
        return self._rest(now, self.client.acknowledged != known)

    def _part_anew(self, anew: _Anew, letter: bytes, message: bytes, took: bool) -> None:
        if anew.replaces:
            if took:
                self._count_own(anew, letter, message)
        elif letter == b"e":
            self._find(message)
        elif took:
            anew.looks = anew.scans  # a copy has hidden what came since

    def _gap(self, now: float) -> None:
        """What came unasked leaves something out, as no server does that keeps the protocol. It is asked for, and then `live` is sent once more."""
        if self.is_live:
            self.is_live = self.is_caught_up = False
            self.live_at = self.ask_at = now

    def _gone_live(self, head: _Sent, now: float) -> None:
        self.told = head.id
        self.is_live = head.id == self.client.id
        self._show_again()
        self._rest(now)

    def _show_again(self) -> None:
        self.is_showing = self.is_showing or self.shown not in (None, "null")

    def _heard_here(self, message: bytes) -> None:
        """Another client shows this of itself. What comes back of the own is no news, also under the id that was given up: but if it is null, an older
        connection of this client has ended, or that of another program with its id, and the server takes it for gone."""
        try:
            word, client, value = json.loads(message)
        except (ValueError, TypeError, RecursionError):
            word, client, value = "", None, None
        if word != "here" or type(client) is not int:
            return self._fault("what others show of themselves can not be read")
        self.has_here = True
        if client not in (self.client.id, self.told):
            self.events.append(Event("here", {"client": client, "value": value}))
        elif client == self.client.id and value is None:
            self._show_again()
        return None

    def _not_shown(self, reason: int, now: float) -> None:
        """The server has no memory for it now, or no such word; or it can't take this value, and keeps the last one."""
        if reason == 9 and self.has_here is None:
            self.has_here = False
        if reason == 7:
            self.is_showing, self.show_at = True, now + self.second

    def _is_told_other(self) -> bool:
        """Where what comes unasked is for the id that was given up, a copy counts that one's edits. All is told again from the next `live` on."""
        return self.told is not None and self.told != self.client.id

    def _judged_to(self, head: _Sent, now: float) -> None:
        self._left(head)
        self.judged = max(self.judged, head.number)
        self.hold_for = self.second
        self._online()
        self._rest(now, nearer=False)

    def _left(self, head: _Sent) -> None:
        if head.what == "edit":
            self.edits -= 1
            self.bytes -= head.size
        elif head.what == "here":
            self.showing -= 1
        elif head.counted:
            self.asking -= 1

    def _answered(self, head: _Sent, now: float) -> None:
        if not head.counted:
            return
        self._left(head)
        self.trip = 0.8 * self.trip + 0.2 * (now - head.at) if self.trip else now - head.at
        self.lately = head.entries
        head.ahead = head.ahead or head.start > self._hearer().version  # the ask before it was answered by a No
        self._online()
        head.round.useful += head.entries > 0
        if head.entries >= MOST_ENTRIES:
            head.round.full = True
            self.width = min(2 * self.width, self.most_asks)
            self.ask_at = now
            return
        self.width = max(1, min(head.round.useful, MOST_AHEAD)) if head.round.full else 1
        for it in self.fifo:  # what was asked ahead of the end brings nothing, and hinders no ask
            if it.counted and it.start > self._hearer().version:
                self.asking -= 1
                it.counted = False
        more = head.took or (self.client.waiting > 0 and self.anew is None)
        self.pause = self.least_pause if more else min(1.25 * self.pause, self.most_pause)
        steady = self._steady()
        spaced = self.asked_at + max(self.pause, self.trip / steady) if steady > 1 else now + self.pause
        self.ask_at = now if head.copy or head.ahead else max(now, spaced)
        if not head.copy and not head.ahead:
            self._rest(now)
            self._caught_up(head, now)

    def _caught_up(self, head: _Sent, now: float) -> None:
        if self.anew and self.anew.looks:
            self.anew.step = "scan"
            return None
        if self.anew and self.anew.replaces:
            return self._replace(self.anew)
        if self.anew:
            return self._swap()
        self.is_caught_up = True
        self._misses(head, now)
        if self.dropping and self.client.acknowledged >= self.dropped - 1:
            self._begin_replacing(now)
        self.events.append(Event("caught up"))
        return None

    def _misses(self, head: _Sent, now: float) -> None:
        """The number of an edit was answered, and its entry isn't among those that came, again and again: it stands in another history."""
        if head.last_judged <= self.client.acknowledged:
            self._missing = None
            return
        since, times = self._missing or (now, 0)
        self._missing = (since, times + 1)
        if times + 1 >= PROVEN and now - since >= PROVEN_AFTER * self.second:
            self.begin_anew(State.STRANGER, scan=True, start=0)

    def _may_be_judged(self, number: int) -> None:
        """The server may have judged this edit, though it hasn't said so."""
        self.tried = max(self.tried, number)

    def _most_tried(self) -> int:
        """The greatest number under which an edit of this program may have been judged."""
        return max(self.judged, self.tried)

    def _hides_twin(self, message: bytes) -> bool:
        """Whether a copy counts edits as judged that aren't this program's, so that another one uses the id: the server never had them from it, or
        the document has an object of theirs."""
        version, done = _head_of_copy(message)
        if version <= self.client.version or done <= self.client.acknowledged:
            return False
        return done > self._most_tried() or self._has_others(message, done)

    def _has_others(self, copy: bytes, done: int) -> bool:
        """Whether a copy has an object with the client's id that the client hasn't created by its edits up to the number `done`."""
        kinds: dict[str, str | None] = {}
        deleted = set()
        for number, message in enumerate(self.client.messages(), self.client.acknowledged + 1):
            what, at, *rest = members(change_of(message))
            if what == '"create"':
                kinds[at] = rest[0] if number <= done else None
            elif what == '"delete"':
                deleted.add(at)
        for at, kind in re.findall(r'\[(\[%d,\d+\]),("[a-z]+"),\[' % (self.client.id or 0), copy.decode()):
            if kinds[at] != kind if at in kinds else at not in deleted and self.client.object(ObjectId(*json.loads(at))) is None:
                return True
        return False

    def _another(self, letter: bytes, message: bytes) -> None:
        """A message for this version that the client can't take: an entry of its own id that isn't its edit, or a copy with fewer edits of it
        than it has heard of. Where the number isn't the next one either, the server has another history: the entries before it were passed by."""
        if letter == b"c":
            return self.begin_anew(State.STRANGER)
        number = int(members(members(message.decode())[2])[1])
        if number == self.client.acknowledged + 1:
            return self.begin_anew(State.REPLACED, scan=True)
        return self.begin_anew(State.STRANGER, scan=True, start=0)

    def _no(self, head: _Sent, reason: int, now: float) -> None:
        name, words = NO_REASONS.get(reason, ("fault", f"the server refuses for the reason {reason}"))
        state = State(name) if name in _STATES else State.FAULT  # no server that keeps the protocol sends the others here
        self._left(head)
        if head.what == "live":
            return self._not_live(reason, now)
        if head.what == "here":
            return self._not_shown(reason, now)
        if reason == 1:
            return self._unknown()
        if head.what == "ask":
            self.ask_at = now + self.second
            if reason != 7:
                self._fault(words)
            elif not self.is_full and not self.dropping:
                self._tell(state, words)
            return None
        if head.what == "join":
            self._tell(state, words)
            return self._hold(now)
        if reason not in _UNJUDGED:
            self._may_be_judged(head.number)
        # Whatever was sent behind this edit is answered by gaps now: it is sent again.
        for it in self.fifo:
            it.void = it.void or it.what == "edit"
        self.sent = 0
        if reason == 3:
            return self.begin_anew(State.STRANGER) if head.first else None
        self._tell(state, words)
        if reason == 4:
            self.is_full = True
        elif reason not in (8, 9):
            self._hold(now)
        elif head.number == self.emptied:
            self._fault(words)  # it takes no edit at all
        else:
            self.dropping, self.dropped = reason, head.number
            self.ask_at = now
        return None

    def _not_live(self, reason: int, now: float) -> None:
        """The server has another history, in which the id may have edits; no memory for now; or no such word."""
        if reason == 1:
            return self.begin_anew(State.STRANGER, scan=True, start=0)
        if reason == 7:
            self.live_at = now + self.second
        else:
            self.is_older = True
        self.ask_at = now
        self.pause = self.least_pause
        return None

    def _unknown(self) -> None:
        """The server doesn't know the id. While this begins anew it is the new one, which joins once more."""
        if self.anew and self.anew.replaces:
            self.anew = None
        if self.anew is None:
            return self.begin_anew(State.STRANGER)
        for it in self.fifo:
            it.void = True
        self.anew.client = Client()
        return None

    def _hold(self, now: float) -> None:
        self.hold_until = now + self.hold_for
        self.hold_for = min(2 * self.hold_for, MOST_WAIT * self.second)

    def _pass(self, head: _Sent, letter: bytes, message: bytes, now: float) -> None:
        """An answer that is of no use any more, or one that is looked through for edits of this id."""
        ends = letter not in (b"e", b"c")
        scan = self.anew if self.anew and self.anew.step == "scan" and head.scan else None
        if scan and not ends:
            head.entries += 1
            if letter == b"c":
                scan.start, scan.done = _head_of_copy(message)
            else:
                self._find(message)
                scan.start += _version_of(message) == scan.start + 1  # what comes unasked is of later ones
        if not ends:
            return
        self.fifo.pop(0)
        self._left(head)
        if head.what == "live" and letter == b"i":
            self.told = head.id
        elif head.what == "live" and _reason_of(message) not in (1, 7):
            self.is_older, self.live_at = True, NEVER
        if head.what == "edit" and letter == b"i":
            self.judged = max(self.judged, head.number)
        elif head.what == "edit" and _reason_of(message) not in _UNJUDGED:
            self._may_be_judged(head.number)
        if scan:
            self._scanned(scan, head, letter, message, now)

    def _is_own_entry(self, message: bytes) -> bool:
        return message.startswith(f"[{self.client.id},".encode(), message.find(b",", 9) + 1)  # behind ["entry",VERSION,

    def _find(self, message: bytes) -> None:
        """Notes an entry of the id that is given up."""
        if self.anew is None or not self._is_own_entry(message):
            return
        _, number, what, _ = members(members(message.decode())[2])
        self.anew.found[int(number)] = what

    def _tell_refusal(self, message: bytes, letter: bytes) -> None:
        if letter != b"e" or b'["refused",' not in message:
            return
        _, version, entry = members(message.decode())
        author, number, what, outcome = members(entry)
        if int(author) != self.client.id or not outcome.startswith('["refused",'):
            return
        edit, at, *_ = members(what)
        name, words = REFUSALS.get(int(members(outcome)[1]), ("Unknown", "the server refused it"))
        self.events.append(Event("refused", {"version": int(version), "number": int(number), "edit": json.loads(edit), "id": ObjectId(*json.loads(at)), "name": name, "words": words}))

    # Beginning anew.

    def begin_anew(self, state: State, scan: bool = False, start: int | None = None) -> None:
        """Goes on as another client: joins and hears what there is; then looks through the log, if `scan`, for what was judged of the edits that
        wait; hears what came meanwhile; and makes again what waits and was never judged."""
        if self.anew or self.client.id is None:
            return  # without an id it has neither edits nor news
        for it in self.fifo:
            it.void = True
        self.anew = _Anew(scan, self.client.version if start is None else start, looks=scan)
        self.dropping = 0
        self._leave()
        words = "another program uses this id; it begins anew" if state is State.REPLACED else self.words if state is self.state else "the server has another history; it begins anew"
        self._tell(state, words)

    def _leave(self) -> None:
        """Another client hears now. What is told unasked isn't for that one."""
        self._missing = None
        self.top, self.width = 0, 1
        self.is_live = False
        if not self.is_older:
            self.live_at = 0.0

    def _scan(self, out: list[bytes], now: float) -> None:
        assert self.anew is not None
        if self.anew.asking or self.fifo or now < self.hold_until:
            return
        self.anew.asking = True
        self.asking += 1
        self._push(out, _ask_text(self.client.id, self.anew.start), _Sent("ask", 0, scan=True, at=now, counted=True))

    def _scanned(self, scan: _Anew, head: _Sent, letter: bytes, message: bytes, now: float) -> None:
        """An answer of the look has come: there is more, the server couldn't answer now, or all was seen."""
        scan.asking = False
        if letter == b"n" and _reason_of(message) == 7:
            self._hold(now)
        elif letter != b"i" or head.entries < MOST_ENTRIES:
            scan.looks, scan.step = False, "join"
            self.ask_at = now

    def _fate(self, anew: _Anew, number: int, change: str) -> str:
        """What became of an edit that waits: "judged", "open" if it surely wasn't, or "unsure". Of the numbers that a copy has hidden those are
        open that the server never had from this program, unless the edit is in a save: then another program may have sent the very edit. For the
        rest it counts whether the document shows what the edit did."""
        entry = anew.found.get(number)
        if entry is not None:
            return "judged" if entry == change else "open"
        saved = max(self.client.saved_to, 0 if self.limit == ENDLESS else self.limit)
        if number > anew.done or number > max(self._most_tried(), saved):
            return "open"
        return "judged" if is_shown(anew.client, change) else "unsure"

    def _swap(self) -> None:
        anew = self.anew
        assert anew is not None
        ids: dict[ObjectId, ObjectId] = {}
        lost: list[tuple[str, str]] = []
        unsure: list[str] = []
        made = 0
        first = self.client.acknowledged + 1
        changes = [change_of(message) for message in self.client.messages()]
        fates = [self._fate(anew, number, change) for number, change in enumerate(changes, first)]  # before what is made again changes what is shown
        for change, fate in zip(changes, fates):
            if fate == "judged":
                continue
            if fate == "unsure":
                unsure.append(change)
                continue
            code = remake(anew.client, change, ids)
            if code:
                lost.append((change, code))
            else:
                made += 1
        self.anew = None
        self.judged = self.tried = self.sent = self.emptied = 0
        self.is_full = False
        self.client.become(anew.client)
        self.events.append(Event("anew", {"made": made, "lost": lost, "unsure": unsure, "ids": ids}))
        self.is_caught_up = True
        self._tell(State.ONLINE, "")
        self.events.append(Event("caught up"))

    # An edit that the server can't take.

    def _begin_replacing(self, now: float) -> None:
        """Once those before it are judged, its number is given to one that changes nothing. What it did to the view can't be taken back, as the
        client keeps no document without it: so an observer hears the document again. The connection may be another one than that of the No."""
        if self.client.acknowledged >= self.dropped:  # it was judged before the No
            self.dropping = 0
            return self._online()
        name, words = NO_REASONS[self.dropping]
        self._tell(State(name), words)
        for it in self.fifo:
            it.void = True
        self.anew = _Anew(client=Client(OBSERVER), replaces=True)
        self._leave()
        self.ask_at = now
        return None

    def _count_own(self, anew: _Anew, letter: bytes, message: bytes) -> None:
        if letter == b"c":
            anew.done = _head_of_copy(message)[1]
        elif self._is_own_entry(message):
            anew.done = int(members(members(message.decode())[2])[1])

    def _replace(self, anew: _Anew) -> None:
        """The observer has heard all. If the server counts other edits of the client than it has heard of, it has another history, or another program
        uses the id."""
        known, (name, words) = self.client.acknowledged, NO_REASONS[self.dropping]
        self.anew = None
        if anew.done != known or anew.client.version < max(1, self.client.version):
            return self.begin_anew(State.REPLACED if anew.done > known else State.STRANGER, scan=True, start=0)
        change = change_of(self.client.messages()[0])
        edit, at, *_ = members(change)
        self.client.become(self.client.emptied(anew.client))
        self.dropping = 0
        self.emptied = known + 1
        if self.limit != ENDLESS:
            self.limit = known  # the client is to be kept before the edit is sent
        told = {"version": self.client.version, "number": known + 1, "edit": json.loads(edit), "id": ObjectId(*json.loads(at)), "name": name, "words": words, "change": change}
        self.events.append(Event("refused", told))
        self._tell(State.ONLINE, "")
        self.events.append(Event("caught up"))
        return None

    # States.

    def _online(self) -> None:
        if self.anew or self.is_full or self.dropping or (self.hold_for > self.second and self.state in _HELD):
            return
        self._tell(State.ONLINE, "")

    def _fault(self, words: str) -> None:
        self._tell(State.FAULT, words)

    def _tell(self, state: State, words: str) -> None:
        if (self.state, self.words) == (state, words):
            return
        self.state, self.words = state, words
        self.events.append(Event("state", {"state": state, "words": words}))


def _ask_text(id: int | None, version: int) -> bytes:
    return f'["ask",{id},{version}]'.encode()


def _seen_by_no_one(copy: bytes) -> bytes:
    """A copy for an observer, to which no edit is its own."""
    return re.sub(rb'^(\["copy",\d+,)\d+', rb"\g<1>0", copy, count=1)


def _version_of(message: bytes) -> int:
    found = re.match(rb'\["[a-z]+",(\d+)', message)
    return int(found.group(1)) if found else 0


def _head_of_copy(copy: bytes) -> tuple[int, int]:
    """The version of a copy, and how many edits of the client were judged by then."""
    found = re.match(rb'\["copy",(\d+),(\d+)', copy)
    return (int(found.group(1)), int(found.group(2))) if found else (0, 0)


def _reason_of(no: bytes) -> int:
    found = re.match(rb'\["no",(\d+)', no)
    return int(found.group(1)) if found else 0
