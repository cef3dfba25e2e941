// What a link says and hears, without sockets and clocks: which messages to send next on the open connection, and what an answer means.
// The same machine stands in python/src/lugcurrant/flow.py, and both are tried against the same made-up servers.
//
// Up to `window` edits (and `windowBytes` of them) are under way at once, and behind them an ask. The server reads, answers and reads on, so
// answers come in the order of what was sent. Where an answer is as full as it may be, more asks go ahead of the answers, each for the
// version that the one before it leads to.
//
// Once an ask has brought all, the server is asked to tell the rest unasked (`live`, docs/clients.md). If it does, the connection is live: entries and
// copies come between answers, and nothing is asked but whether the server is still there. An older server answers No 9, and asks go on.
//
// On a live connection the client shows the others what it was given by `show` (`here`, docs/clients.md), and hears what they show. Only the last value
// counts, so what comes too soon or before the connection is live waits, and a later value takes its place.
import { NO_REASONS, REFUSALS, STATES } from './api.js';
import { ClientError, textOfBytes } from './client.js';
import { changeOf, isShown, members, remake } from './remake.js';

export const MOST_ENTRIES = 64;
const ENDLESS = 1n << 62n;
const MOST_AHEAD = 4;                             // asks at once where a round trip's news fill more than one answer
const MOST_WAIT = 10000;                          // milliseconds before what a server couldn't keep is sent again
const PROVEN = 3, PROVEN_AFTER = 2000;            // asks that must miss an edit that was answered, and for how long
const MISSED_AFTER = 700;                         // milliseconds after which a live connection is asked for an edit that was answered and hasn't come
const SHOWN_EVERY = 34, MOST_SHOWN = 16;           // milliseconds between two values that are shown: at most 30 a second; and how many may be under way
const OBSERVER = '["client",[4294967295,0,0,0],[],[[[0,0],"document",null,[]]]]';          // a client of an id that no server gives

export class Flow {
  constructor(client, options = {}) {
    this.client = client;
    this.window = options.window ?? 64;
    this.windowBytes = options.windowBytes ?? 262144;
    this.mostAsks = options.mostAsks ?? 32;       // asks under way while catching up
    this.asks = options.asks ?? 4;                // asks under way while few news come, a part of a round trip apart
    this.leastPause = options.leastPause ?? 5;
    this.mostPause = options.mostPause ?? 400;
    this.beat = options.beat ?? 20000;            // milliseconds without a message after which a live connection is tried by an ask
    this.limit = ENDLESS;                         // edits above this number aren't sent yet: they aren't kept
    this.judged = 0n;                             // the greatest number of an edit that was answered by idle
    this.tried = BigInt(client.lastEdit);         // the same of one that may have been judged without an answer: sent over a connection that was lost, or before
    this.state = 'connecting';
    this.words = '';
    this.isCaughtUp = false;                      // an ask has brought nothing more, since the connection was made
    this.anew = null;                             // why it begins anew: { client, found, from }; or hears the document again: { client, replaces }
    this.dropping = 0;                            // the reason of the No for which an edit must be replaced, or 0
    this.dropped = 0n;                            // the number of that edit
    this.emptied = 0n;                            // the number of the last one that was replaced
    this.shown = null;                            // the JSON of what the client shows of itself; null if it never did
    this.events = [];
    this.reset();
  }

  reset() {
    for (const it of this.fifo ?? []) if (it.what === 'edit') this.#mayBeJudged(it.number);
    this.isOpen = false;
    this.fifo = [];
    this.edits = 0;                               // under way, and their bytes
    this.bytes = 0;
    this.asking = 0;                              // asks under way
    this.width = 1;                               // how many may be
    this.top = 0n;                                // the version that the last ask leads to
    this.round = { useful: 0, isFull: false };    // of the asks that are under way together: how many brought news
    this.askAt = 0;
    this.askedAt = -Infinity;
    this.pause = this.leastPause;
    this.holdUntil = 0;                           // no edit and no join is sent before
    this.holdFor = 1000;
    this.sent = 0n;
    this.isCaughtUp = false;
    this.trip = 0;                                // milliseconds from an ask to its answer
    this.lately = 0;                              // entries an answer
    this.missing = null;
    this.isFull = false;
    this.isLive = false;                          // what is published comes unasked
    this.told = null;                             // the id for which it does: another one than the client's until the next `live` is answered
    this.liveAt = 0;                              // when `live` may be sent; never while one is under way, or where the server has no such word
    this.isOlder = false;                         // it has none
    this.isShowing = false;                       // what is shown is to be sent
    this.showAt = 0;                              // when it may be
    this.showing = 0;                             // how many values are under way
    this.hasHere = null;                          // whether the server has the word for it, once that is known
  }

  // A connection is open; it is lost.
  open(now) { this.reset(); this.isOpen = true; this.askAt = now; this.startedAnew(); }
  lost() { this.reset(); }

  // Something is to be sent, or heard: no pause is waited out.
  wake(now) { if (this.isOpen && !this.#isTold) { this.askAt = Math.min(this.askAt, now); this.pause = this.leastPause; } }

  // Shows the others this JSON on each live connection from now on.
  show(json) { this.shown = json; this.isShowing = true; }

  // How many edits the server hasn't said to have.
  get unsent() {
    const known = BigInt(this.client.acknowledged), last = known + BigInt(this.client.waiting), had = this.judged > known ? this.judged : known;
    return last > had ? Number(last - had) : 0;
  }

  get isSettled() { return this.isCaughtUp && !this.anew && Number(this.client.waiting) === 0 && this.edits === 0; }

  // ---- what to send ----

  // The messages to send now, in order.
  outgoing(now) {
    const out = [];
    if (!this.isOpen) return out;
    if (this.anew?.step === 'scan') this.#scan(out, now);
    else if (!this.#hearer.id) this.#join(out, now);
    else {
      if (!this.anew && !this.isFull && !this.dropping) this.#edits(out, now);
      this.#live(out, now);
      this.#show(out, now);
      this.#ask(out, now);
    }
    return out;
  }

  // Milliseconds after which `outgoing` may have more, or null: then something must happen first.
  due(now) {
    if (!this.isOpen) return null;
    if (this.anew?.step === 'scan') return this.anew.isAsking || this.fifo.length ? null : Math.max(0, this.holdUntil - now);
    if (!this.#hearer.id) return this.fifo.length ? null : Math.max(0, this.holdUntil - now);
    const waits = [];
    if (this.#mayAsk()) waits.push(this.askAt - now);
    if (this.holdUntil > now && Number(this.client.waiting)) waits.push(this.holdUntil - now);
    if (this.#mayLive()) waits.push(this.liveAt - now);
    if (this.#mayShow) waits.push(this.showAt - now);
    return waits.length ? Math.max(0, Math.min(...waits)) : null;
  }

  get #hearer() { return this.anew?.client ?? this.client; }

  #push(out, what, bytes, more = {}) {
    this.fifo.push({ what, size: bytes.length, entries: 0, took: false, isVoid: false, ...more });
    out.push(bytes);
  }

  #join(out, now) {
    if (this.fifo.length || now < this.holdUntil) return;
    this.#push(out, 'join', this.#hearer.joinMessage());
  }

  #edits(out, now) {
    if (now < this.holdUntil) return;
    const known = BigInt(this.client.acknowledged);
    if (this.sent < known) this.sent = known;
    let pushed = 0;
    while (this.edits < this.window && this.sent < this.limit) {
      const bytes = this.client.editMessage(this.sent - known + 1n);
      if (!bytes || (this.edits && this.bytes + bytes.length > this.windowBytes)) break;
      this.sent += 1n;
      this.edits += 1;
      this.bytes += bytes.length;
      this.#push(out, 'edit', bytes, { number: this.sent, isFirst: this.sent === known + 1n });
      pushed += 1;
    }
    if (pushed && !this.#isTold) { this.askAt = now; this.pause = this.leastPause; }
  }

  #mayLive() { return this.isCaughtUp && !this.anew && !this.isLive && this.liveAt < Infinity; }

  #live(out, now) {
    if (!this.#mayLive() || now < this.liveAt) return;
    const { id, version } = this.client;
    this.liveAt = Infinity;
    this.askAt = now + this.beat;
    this.#push(out, 'live', encoder.encode(`["live",${id},${version}]`), { id });
  }

  get #mayShow() { return this.isShowing && this.isLive && this.hasHere !== false && this.showing < MOST_SHOWN; }

  #show(out, now) {
    if (!this.#mayShow || now < this.showAt) return;
    this.isShowing = false;
    this.showAt = now + SHOWN_EVERY;
    this.showing += 1;
    this.#push(out, 'here', encoder.encode(`["here",${this.client.id},${this.shown}]`));
  }

  // Whether what is published comes unasked, or will once `live` is answered.
  get #isTold() { return !this.anew && (this.isLive || (this.liveAt === Infinity && !this.isOlder)); }

  // Whether an edit was answered whose entry hasn't come.
  get #isMissing() { return this.judged > BigInt(this.client.acknowledged); }

  #mayAsk() { return this.asking < (this.width > 1 ? this.width : this.#steady()); }

  // Asks under way one behind the other hear some news twice: few news an answer leave room for that.
  #steady() { return this.pause > 4 * this.leastPause ? 1 : Math.max(1, Math.min(this.asks, Math.floor(MOST_ENTRIES / Math.max(1, this.lately)))); }

  #ask(out, now) {
    const client = this.#hearer;
    while (this.#mayAsk() && (now >= this.askAt || (this.width > 1 && this.asking))) {
      const version = BigInt(client.version), from = this.width > 1 && this.asking && this.top > version ? this.top : version;
      if (!this.asking) this.round = { useful: 0, isFull: false };
      this.top = from + BigInt(MOST_ENTRIES);
      this.asking += 1;
      this.askedAt = now;
      this.#push(out, 'ask', askText(this.anew?.replaces ? this.client.id : client.id, from), { from, at: now, lastJudged: this.judged, isCounted: true, round: this.round });
      this.askAt = now + (this.#isTold ? this.beat : Math.max(this.leastPause, this.trip / this.#steady()));
    }
  }

  // On a live connection the next ask is far off, whenever a message comes; but where an edit was answered and its entry doesn't come, it is asked for.
  #rest(now, isNearer = true) {
    if (!this.#isTold) return;
    const at = now + (this.#isMissing ? MISSED_AFTER : this.beat);
    this.askAt = this.#isMissing && !isNearer ? Math.min(this.askAt, at) : at;
  }

  // ---- what is heard ----

  // A message of the server. What came of it stands in `events`.
  hear(bytes, now) {
    const wasSettled = this.isSettled;
    this.#hear(bytes, now);
    if (this.isLive && !wasSettled && this.isSettled) this.events.push({ type: 'caught up' });
  }

  #hear(bytes, now) {
    if (bytes[2] === HERE) return this.#heardHere(bytes);
    const head = this.fifo[0], letter = bytes[2], isPart = letter === ENTRY || letter === COPY;         // of ["welcome", ["entry", ["copy", ["idle"], ["no"
    if (isPart && this.told !== null && head?.what !== 'ask') return this.anew ? undefined : this.#part(null, letter, bytes, now);        // unasked
    if (!head) return this.#fault('an answer came that nobody has asked for');
    if (this.anew?.step === 'scan' || head.isVoid) return this.#pass(head, letter, bytes, now);
    if (isPart) return this.#part(head, letter, bytes, now);
    const heard = this.#receive(bytes);
    if (!heard) return undefined;
    this.fifo.shift();
    if (heard.what === 'no') return this.#no(head, heard.reason, now);
    if (head.what === 'edit') this.#judgedTo(head, now);
    else if (head.what === 'ask') this.#answered(head, now);
    else if (head.what === 'live') this.#goneLive(head, now);
    else if (head.what === 'here') { this.showing -= 1; this.hasHere = true; }
    else { this.events.push({ type: 'took' }); this.#online(); this.askAt = now; }
    return undefined;
  }
  // What the message is to the client that hears; null after a fault.
  #receive(bytes) {
    try { return this.#hearer.receive(bytes); } catch (fault) {
      if (!(fault instanceof ClientError)) throw fault;
      this.#fault(fault.message);
      return null;
    }
  }

  // An entry or a copy: of the answer to `head`, or unasked where that is null. Who begins anew asks for all by itself.
  #part(head, letter, bytes, now) {
    const { anew } = this, known = this.client.acknowledged, isCopy = letter === COPY;
    if (isCopy && !anew && this.#isToldOther()) { if (head) head.isAhead = true; return undefined; }
    if (isCopy && !anew && this.#hidesTwin(bytes)) return this.beginAnew('replaced', { scan: true });
    const heard = this.#receive(isCopy && anew?.replaces ? seenByNoOne(bytes) : bytes), isTaken = heard?.what === 'took', isAhead = heard?.what === 'ahead';
    if (!heard) return undefined;
    if (head) Object.assign(head, { entries: head.entries + 1, isCopy: head.isCopy || isCopy, took: head.took || isTaken, isAhead: head.isAhead || isAhead });
    else if (isAhead) this.#gap(now);
    if (anew) this.#partAnew(letter, bytes, isTaken);
    else if (isTaken) { this.events.push({ type: 'took' }); this.#refused(bytes, letter); }
    else if (heard.what === 'not for me') this.#another(letter, bytes);
    return this.#rest(now, this.client.acknowledged !== known);
  }

  #partAnew(letter, bytes, isTaken) {
    if (this.anew.replaces) { if (isTaken) this.#countOwn(letter, bytes); }
    else if (letter === ENTRY) this.#find(textOfBytes(bytes));
    else if (isTaken) this.anew.looks = this.anew.scans;        // a copy has hidden what came since
  }

  // What came unasked leaves something out, as no server does that keeps the protocol. It is asked for, and then `live` is sent once more.
  #gap(now) {
    if (!this.isLive) return;
    this.isLive = false;
    this.isCaughtUp = false;
    this.liveAt = now;
    this.askAt = now;
  }

  #goneLive({ id }, now) {
    this.told = id;
    this.isLive = id === this.client.id;
    this.#showAgain();
    this.#rest(now);
  }

  #showAgain() { this.isShowing ||= this.shown !== null && this.shown !== 'null'; }

  // Another client shows this of itself. What comes back of the own is no news, also under the id that was given up: but if it is null, an older
  // connection of this client has ended, or that of another program with its id, and the server takes it for gone.
  #heardHere(bytes) {
    let message = null;
    try { message = JSON.parse(textOfBytes(bytes)); } catch { /* it is no message then */ }
    const [word, client, value] = Array.isArray(message) ? message : [];
    if (word !== 'here' || !Number.isInteger(client) || message.length !== 3) return this.#fault('what others show of themselves can not be read');
    this.hasHere = true;
    if (client === this.client.id) { if (value === null) this.#showAgain(); } else if (client !== this.told) this.events.push({ type: 'here', client, value });
    return undefined;
  }

  // The server has no memory for it now, or no such word; or it can't take this value, and keeps the last one.
  #notShown(reason, now) {
    if (reason === 9) this.hasHere ??= false;
    if (reason !== 7) return;
    this.isShowing = true;
    this.showAt = now + 1000;
  }

  // Where what comes unasked is for the id that was given up, a copy counts that one's edits. All is told again from the next `live` on.
  #isToldOther() { return this.told !== null && this.told !== this.client.id; }

  #judgedTo(head, now) {
    this.#left(head);
    if (head.number > this.judged) this.judged = head.number;
    this.holdFor = 1000;
    this.#online();
    this.#rest(now, false);
  }

  #left(head) { this.edits -= 1; this.bytes -= head.size; }

  #answered(head, now) {
    if (!head.isCounted) return;
    this.asking -= 1;
    this.trip = this.trip ? 0.8 * this.trip + 0.2 * (now - head.at) : now - head.at;
    this.lately = head.entries;
    if (head.from > BigInt(this.#hearer.version)) head.isAhead = true;         // the ask before it was answered by a No
    this.#online();
    if (head.entries) head.round.useful += 1;
    if (head.entries >= MOST_ENTRIES) { head.round.isFull = true; this.width = Math.min(2 * this.width, this.mostAsks); this.askAt = now; return; }
    this.width = head.round.isFull ? Math.max(1, Math.min(head.round.useful, MOST_AHEAD)) : 1;
    // What was asked ahead of the end brings nothing, and hinders no ask.
    for (const it of this.fifo) if (it.isCounted && it.from > BigInt(this.#hearer.version)) { this.asking -= 1; it.isCounted = false; }
    const isMore = head.took || (Number(this.client.waiting) > 0 && !this.anew);
    this.pause = isMore ? this.leastPause : Math.min(1.25 * this.pause, this.mostPause);
    const spaced = this.#steady() > 1 ? this.askedAt + Math.max(this.pause, this.trip / this.#steady()) : now + this.pause;
    this.askAt = head.isCopy || head.isAhead ? now : Math.max(now, spaced);
    if (head.isCopy || head.isAhead) return;
    this.#rest(now);
    this.#caughtUp(head, now);
  }

  #caughtUp(head, now) {
    if (this.anew?.looks) { this.anew.step = 'scan'; return; }
    if (this.anew?.replaces) { this.#replace(); return; }
    if (this.anew) { this.#swap(); return; }
    this.isCaughtUp = true;
    this.#misses(head, now);
    if (this.dropping && BigInt(this.client.acknowledged) >= this.dropped - 1n) this.#beginReplacing(now);
    this.events.push({ type: 'caught up' });
  }

  // The number of an edit was answered, and its entry isn't among those that came, again and again: it stands in another history than the one
  // that this client has heard, of which the own entries are looked for from the first on.
  //
  // On a live connection too: the edit was judged before it was answered, so before this ask was sent, and the answer has all entries after the version
  // that the client had then. What came unasked between can only have brought it further. Such an ask is sent only where an entry is late (`#rest`).
  #misses(head, now) {
    const known = BigInt(this.client.acknowledged);
    if (head.lastJudged <= known) { this.missing = null; return; }
    this.missing ??= { since: now, times: 0 };
    this.missing.times += 1;
    if (this.missing.times >= PROVEN && now - this.missing.since >= PROVEN_AFTER) this.beginAnew('stranger', { scan: true, from: 0n });
  }

  // The server may have judged this edit, though it hasn't said so.
  #mayBeJudged(number) { if (number > this.tried) this.tried = number; }

  // The greatest number under which an edit of this program may have been judged.
  get #mostTried() { return this.judged > this.tried ? this.judged : this.tried; }

  // Whether a copy counts edits as judged that aren't this program's, so that another one uses the id: the server never had them from it, or the
  // document has an object of theirs. The client would take such a copy, and its own edits of these numbers for judged; and when it creates an object
  // with the id of the other one, and is refused, it would show neither.
  //
  // A copy that comes unasked is no other: an edit that this connection brought is answered before anything that has it is told, so that `judged` counts
  // it already; and one that a lost connection brought is counted by `tried`. Where a server told it first, this would begin anew, and lose nothing.
  #hidesTwin(bytes) {
    const { version, done } = headOfCopy(bytes), known = BigInt(this.client.acknowledged);
    return version > BigInt(this.client.version) && done > known && (done > this.#mostTried || this.#hasOthers(textOfBytes(bytes), done));
  }

  // Whether a copy has an object with the client's id that the client hasn't created by its edits up to the number `done`.
  #hasOthers(copy, done) {
    const { client } = this, kinds = new Map(), deleted = new Set();
    let number = BigInt(client.acknowledged);
    for (const bytes of client.messages()) {
      const [what, id, kind] = members(changeOf(textOfBytes(bytes)));
      number += 1n;
      if (what === '"create"') kinds.set(id, number <= done ? kind : null);
      if (what === '"delete"') deleted.add(id);
    }
    for (const [, id, kind] of copy.matchAll(new RegExp(`\\[(\\[${client.id},\\d+\\]),("[a-z]+"),\\[`, 'g'))) {
      if (kinds.has(id) ? kinds.get(id) !== kind : !deleted.has(id) && !client.isInView(JSON.parse(id).join(':'))) return true;
    }
    return false;
  }

  // A message for this version that the client can't take: an entry of its own id that isn't its edit, or a copy with fewer edits of it than it has
  // heard of. Where the number isn't the next one either, the server has another history: the entries before it were passed by.
  #another(letter, bytes) {
    if (letter === COPY) return this.beginAnew('stranger');
    const known = BigInt(this.client.acknowledged), number = BigInt(members(members(textOfBytes(bytes))[2])[1]);
    return number === known + 1n ? this.beginAnew('replaced', { scan: true }) : this.beginAnew('stranger', { scan: true, from: 0n });
  }

  #no(head, reason, now) {
    const [reasonName, words] = NO_REASONS[reason] ?? ['fault', `the server refuses for the reason ${reason}`];
    const name = reasonName in STATES ? reasonName : 'fault';     // no server that keeps the protocol sends the others here
    this.#left0(head);
    if (head.what === 'live') return this.#notLive(reason, now);
    if (head.what === 'here') return this.#notShown(reason, now);
    if (reason === 1) return this.#unknown();
    if (head.what === 'ask') {
      this.askAt = now + 1000;
      if (reason !== 7) this.#fault(words); else if (!this.isFull && !this.dropping) this.#tell(name, words);
      return undefined;
    }
    if (head.what === 'join') { this.#tell(name, words); return this.#hold(now); }
    if (!UNJUDGED.includes(reason)) this.#mayBeJudged(head.number);
    // Whatever was sent behind this edit is answered by gaps now: it is sent again.
    for (const it of this.fifo) if (it.what === 'edit') it.isVoid = true;
    this.sent = 0n;
    if (reason === 3) return head.isFirst ? this.beginAnew('stranger', { scan: false }) : undefined;
    this.#tell(name, words);
    if (reason === 4) { this.isFull = true; return undefined; }
    if (reason !== 8 && reason !== 9) return this.#hold(now);
    if (head.number === this.emptied) return this.#fault(words);        // it takes no edit at all
    this.dropping = reason;
    this.dropped = head.number;
    this.askAt = now;
    return undefined;
  }

  // The server has another history, in which the id may have edits; no memory for now; or no such word.
  #notLive(reason, now) {
    if (reason === 1) { this.beginAnew('stranger', { scan: true, from: 0n }); return; }
    if (reason === 7) this.liveAt = now + 1000; else this.isOlder = true;
    this.askAt = now;
    this.pause = this.leastPause;
  }

  // The server doesn't know the id. While this begins anew it is the new one, which joins once more.
  #unknown() {
    if (this.anew?.replaces) this.anew = null;
    if (!this.anew) return this.beginAnew('stranger', { scan: false });
    for (const it of this.fifo) it.isVoid = true;
    this.anew.client = this.client.sibling();
    return undefined;
  }

  #left0(head) {
    if (head.what === 'edit') this.#left(head);
    else if (head.what === 'here') this.showing -= 1;
    else if (head.isCounted) this.asking -= 1;
  }

  #hold(now) { this.holdUntil = now + this.holdFor; this.holdFor = Math.min(2 * this.holdFor, MOST_WAIT); }

  // An answer that is of no use any more, or one that is looked through for edits of this id.
  #pass(head, letter, bytes, now) {
    const isEnd = letter !== ENTRY && letter !== COPY;
    if (this.anew?.step === 'scan' && !isEnd && head.isScan) {
      head.entries += 1;
      const text = textOfBytes(bytes), version = versionOf(text);
      if (letter === COPY) Object.assign(this.anew, { from: version, done: headOfCopy(bytes).done });
      else { this.#find(text); if (version === this.anew.from + 1n) this.anew.from = version; }        // what comes unasked is of later ones
    }
    if (!isEnd) return undefined;
    this.fifo.shift();
    this.#left0(head);
    if (head.what === 'live') { if (letter === IDLE) this.told = head.id; else if (![1, 7].includes(reasonOf(bytes))) { this.isOlder = true; this.liveAt = Infinity; } }
    if (head.what === 'edit') {
      if (letter !== IDLE) { if (!UNJUDGED.includes(reasonOf(bytes))) this.#mayBeJudged(head.number); } else if (head.number > this.judged) this.judged = head.number;
    }
    if (this.anew?.step === 'scan' && head.isScan) this.#scanned(head, letter, bytes, now);
    return undefined;
  }

  #isOwnEntry(text) { return text.startsWith(`[${this.client.id},`, text.indexOf(',', 9) + 1); }        // behind ["entry",VERSION,

  // Notes an entry of the id that is given up.
  #find(text) {
    if (!this.#isOwnEntry(text)) return;
    const [, number, what] = members(members(text)[2]);
    this.anew.found.set(number, what);
  }

  // An entry of the client's own that was refused is told in words. The client has taken it already: nothing is changed here.
  #refused(bytes, letter) {
    if (letter !== ENTRY) return;
    const text = textOfBytes(bytes);
    if (!text.includes('["refused",')) return;
    const [, version, entry] = members(text), [author, number, what, outcome] = members(entry);
    if (Number(author) !== this.client.id || !outcome.startsWith('["refused",')) return;
    const [edit, id] = members(what), [name, words] = REFUSALS[JSON.parse(members(outcome)[1])] ?? ['Unknown', 'the server refused it'];
    this.events.push({ type: 'refused', version: Number(version), number: Number(number), edit: JSON.parse(edit), id: JSON.parse(id).join(':'), name, words });
  }

  // ---- beginning anew ----

  // Goes on as another client: joins and hears what there is; then looks through the log, if `scan`, for what was judged of the edits that wait;
  // hears what came meanwhile; and makes again what waits and was never judged. It looks as late as it can: the server may still read an edit that
  // was sent over a connection that is lost.
  beginAnew(state, { scan = false, from = BigInt(this.client.version) } = {}) {
    if (this.anew || !this.client.id) return undefined;         // without an id it has neither edits nor news
    for (const it of this.fifo) it.isVoid = true;
    this.anew = { state, step: 'join', scans: scan, looks: scan, client: this.client.sibling(), found: new Map(), done: 0n, from, isAsking: false };
    this.dropping = 0;
    this.#leave();
    this.#tell(state, state === 'replaced' ? 'another program uses this id; it begins anew' : this.state === state ? this.words : 'the server has another history; it begins anew');
    return undefined;
  }

  // Another client hears now. What is told unasked isn't for that one.
  #leave() {
    this.missing = null;
    this.top = 0n;
    this.width = 1;
    this.isLive = false;
    if (!this.isOlder) this.liveAt = 0;
  }

  // On a new connection what was under way is asked for again.
  startedAnew() { if (this.anew) this.anew.isAsking = false; }

  #scan(out, now) {
    if (this.anew.isAsking || this.fifo.length || now < this.holdUntil) return;
    this.anew.isAsking = true;
    this.asking += 1;
    this.#push(out, 'ask', askText(this.client.id, this.anew.from), { isScan: true, at: now, isCounted: true });
  }

  // An answer of the look has come: there is more, the server couldn't answer now, or all was seen.
  #scanned(head, letter, bytes, now) {
    const isMore = letter === IDLE && head.entries >= MOST_ENTRIES, isLater = letter !== IDLE && reasonOf(bytes) === 7;
    if (isLater) this.#hold(now);
    this.anew.isAsking = false;
    if (isMore || isLater) return;
    this.anew.looks = false;
    this.anew.step = 'join';
    this.askAt = now;
  }

  // What became of an edit that waits: 'judged', 'open' if it surely wasn't, or 'unsure'. Of the numbers that a copy has hidden those are open that
  // the server never had from this program, unless the edit is in a save: then another program may have sent the very edit. For the rest it counts
  // whether the document shows what the edit did.
  #fate(number, change) {
    const { found, done, client } = this.anew, entry = found.get(String(number));
    if (entry !== undefined) return entry === change ? 'judged' : 'open';
    const saved = BigInt(this.client.savedTo), kept = this.limit === ENDLESS ? 0n : this.limit;
    if (number > done || (number > this.#mostTried && number > saved && number > kept)) return 'open';
    return isShown(client, change) ? 'judged' : 'unsure';
  }

  #swap() {
    const { client: fresh } = this.anew, ids = new Map(), lost = [], unsure = [], first = BigInt(this.client.acknowledged) + 1n;
    const changes = [...this.client.messages()].map((bytes) => changeOf(textOfBytes(bytes)));
    const fates = changes.map((change, k) => this.#fate(first + BigInt(k), change));              // before edits that are made again change what is shown
    let made = 0;
    changes.forEach((change, k) => {
      if (fates[k] === 'judged') return;
      if (fates[k] === 'unsure') { unsure.push({ change }); return; }
      const code = remake(fresh, change, ids);
      if (code) lost.push({ change, code }); else made += 1;
    });
    this.anew = null;
    this.judged = 0n;
    this.tried = 0n;
    this.sent = 0n;
    this.emptied = 0n;
    this.isFull = false;
    this.client.become(fresh);
    this.events.push({ type: 'anew', made, lost, unsure, ids });
    this.isCaughtUp = true;
    this.#tell('online', '');
    this.events.push({ type: 'caught up' });
  }

  // ---- an edit that the server can't take ----

  // Once those before it are judged, its number is given to one that changes nothing. No later edit moves down: the server may still read one of the old
  // number from a connection that is lost, and judge it in place of that which has the number now. What the edit did to the view can't be taken back, as
  // the client keeps no document without it: so an observer hears the document again. The connection may be another one than that of the No.
  #beginReplacing(now) {
    if (BigInt(this.client.acknowledged) >= this.dropped) { this.dropping = 0; this.#online(); return; }         // it was judged before the No
    this.#tell(...NO_REASONS[this.dropping]);
    for (const it of this.fifo) it.isVoid = true;
    this.anew = { step: 'join', looks: false, client: this.client.sibling(OBSERVER), replaces: true, done: 0n };
    this.#leave();
    this.askAt = now;
  }

  // The client's edits up to what the observer has heard.
  #countOwn(letter, bytes) {
    if (letter === COPY) { this.anew.done = headOfCopy(bytes).done; return; }
    const text = textOfBytes(bytes);
    if (this.#isOwnEntry(text)) this.anew.done = BigInt(members(members(text)[2])[1]);
  }

  // The observer has heard all. If the server counts other edits of the client than it has heard of, it has another history, or another program uses the id.
  #replace() {
    const { client: heard, done } = this.anew, known = BigInt(this.client.acknowledged), [name, words] = NO_REASONS[this.dropping];
    this.anew = null;
    if (done !== known || !heard.version || BigInt(heard.version) < BigInt(this.client.version)) { heard.discard(); this.beginAnew(done > known ? 'replaced' : 'stranger', { scan: true, from: 0n }); return; }
    const change = changeOf(textOfBytes(this.client.editMessage(1))), [edit, id] = members(change), emptied = this.client.emptied(heard);
    heard.discard();
    this.client.become(emptied);
    this.dropping = 0;
    this.emptied = known + 1n;
    if (this.limit !== ENDLESS) this.limit = known;         // the client is to be kept before the edit is sent
    this.events.push({ type: 'refused', version: Number(this.client.version), number: Number(known + 1n), edit: JSON.parse(edit), id: JSON.parse(id).join(':'), name, words, change });
    this.#tell('online', '');
    this.events.push({ type: 'caught up' });
  }

  // ---- states ----

  #online() {
    if (this.anew || this.isFull || this.dropping) return;
    if (this.holdFor > 1000 && ['disk failed', 'disk failed before', 'no memory'].includes(this.state)) return;
    this.#tell('online', '');
  }

  #fault(words) { this.#tell('fault', words); }

  #tell(state, words) {
    if (this.state === state && this.words === words) return;
    this.state = state;
    this.words = words;
    this.events.push({ type: 'state', state, words });
  }
}

const ENTRY = 0x65, COPY = 0x63, IDLE = 0x69, HERE = 0x68;
const UNJUDGED = [3, 4, 8, 9];                   // reasons of a No to an edit that wasn't judged
const encoder = new TextEncoder();
const askText = (id, version) => encoder.encode(`["ask",${id},${version}]`);
const seenByNoOne = (copy) => encoder.encode(textOfBytes(copy).replace(/^\["copy",(\d+),\d+/, '["copy",$1,0'));        // to an observer no edit is its own
const versionOf = (text) => BigInt(/^\["[a-z]+",(\d+)/.exec(text)?.[1] ?? 0);
const reasonOf = (no) => Number(/^\["no",(\d+)/.exec(textOfBytes(no))?.[1]);
function headOfCopy(copy) {
  const [, version, done] = /^\["copy",(\d+),(\d+)/.exec(textOfBytes(copy.subarray(0, 80))) ?? [null, 0, 0];
  return { version: BigInt(version), done: BigInt(done) };
}
