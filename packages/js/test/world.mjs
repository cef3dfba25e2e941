// One random world: a made-up server, and the flows of two to five links over connections with delays of their own, by a made-up clock.
// Connections are lost with things under way, of which the server may read some later. What else happens is in `kinds`:
//   noes         too large, not read, disk, memory
//   checkpoints  the log before the version is hidden: who asks from there gets a copy
//   twins        programs that go on from a save of another program's client
//   back         the server has an older log, under another identity
//   behind       the server has forgotten that a client's last edit was judged, or the client, and has the same identity
//   full         the server takes no more edits in the end
//   live         the server tells unasked what is published (`live`)
//   mixed        now it does, now an older one stands in its place, that doesn't
//   skips        it leaves something out now and then, against the protocol
//   shows        the clients show something of themselves (`here`); now and then the server has no such word
import assert from 'node:assert';
import { ClientError } from '../src/client.js';
import { Flow } from '../src/flow.js';
import { Presence } from '../src/presence.js';
import { changeOf } from '../src/remake.js';
import { FakeServer, Plain } from './fake.mjs';
import { newClient } from './standin.mjs';
import { Agenda } from './agenda.mjs';
import { checkAnew, checkCopy, checkOnce } from './checks.mjs';
import { trace, traceEvents, tracedClient, tracedFlow } from './trace.mjs';

const text = (bytes) => Buffer.from(bytes).toString();
const pick = (dice, list) => list[Math.floor(dice() * list.length)];

function diceOf(seed) {
  let s = (seed * 2654435761) >>> 0 || 1;
  return () => { s ^= s << 13; s >>>= 0; s ^= s >>> 17; s ^= s << 5; s >>>= 0; return s / 4294967296; };
}

export class World {
  constructor(seed) {
    this.seed = seed;
    this.dice = diceOf(seed);
    this.now = 0;
    this.agenda = new Agenda();
    this.showDice = diceOf(seed + 1000003);            // of what is shown, and when
    this.kinds = this.#kinds();
    this.checkpointRate = this.kinds.checkpoints ? pick(this.dice, [0.02, 0.003]) : 0;
    this.server = new FakeServer({ largest: this.kinds.noes ? 220 : 1 << 20, dice: this.dice, isLive: this.kinds.live, hasHere: this.#hasHere(this.kinds.live) });
    this.server.trouble = this.kinds.noes ? 5 : 0;
    this.senders = new Map();                          // of each version an edit came to: the player, and whether its connection was lost by then
    this.made = new Map();                             // the values that were set, each another one, and by whom
    this.lost = new Set();                             // those of edits that were told to be lost, or to be unsure
    this.unsure = new Set();
    this.hidden = new Set();                           // those of edits that a client took for judged when a twin's had been, which no one can see
    this.looked = new Map();                           // those that were made again, and the version up to which they were looked for
    this.shared = new Set();                           // those of edits that waited in a twin's save
    this.shown = new Set();                            // what was shown, each another JSON
    this.players = [];
    this.stat = { messages: 0, unasked: 0, shown: 0, heard: 0, cuts: 0, anew: 0, replaced: 0, made: 0, lost: 0, unsure: 0, hidden: 0, late: 0, both: 0, edits: 0, most: 0 };
  }

  #kinds() {
    const has = (chance) => this.dice() < chance;
    const kinds = { noes: has(0.3), twins: has(0.3), back: has(0.1), behind: has(0.1), full: has(0.03), checkpoints: has(0.4), live: has(0.6) };
    Object.assign(kinds, { mixed: kinds.live && has(0.2), skips: kinds.live && has(0.1), shows: this.showDice() < 0.6 });
    if (kinds.back) kinds.behind = false;
    if (kinds.back || kinds.behind) kinds.twins = false;
    return kinds;
  }

  #hasHere(isLive) { return isLive && this.showDice() < 0.9; }

  at(delay, act) { this.agenda.add(this.now + delay, act); }

  // ---- players ----

  async player(saved = null) {
    const { dice } = this, client = await newClient(saved), n = this.players.length;
    const options = { window: pick(dice, [1, 4, 64]), windowBytes: pick(dice, [300, 262144]), asks: pick(dice, [1, 4]), mostAsks: pick(dice, [1, 32]) };
    trace('new', n, saved ? text(saved) : null, options);
    const player = { client, flow: tracedFlow(new Flow(client, options), n), plain: new Plain(), plainOn: !saved, link: null, quietAt: 0,
      delay: pick(dice, [0, 5, 50, 200]), n, timer: 0, own: new Map(), before: null, savedTo: 0, reachedTo: 0, shows: null, told: [], known: new Map() };
    player.presence = new Presence((json) => player.flow.show(json), (change) => player.told.push(change));
    this.#noteWaiting(player);
    player.savedTo = player.reachedTo = Number(client.lastEdit);
    client.watch((what) => {
      if (what === 'edit') this.#noteEdit(player);
      if (what === 'anew') { if (player.flow.dropping) this.#noteReplaced(player); else this.#noteAnew(player); }
    });
    this.players.push(player);
    this.connect(player);
    return player;
  }

  // `own` has a player's edits under its present id by their numbers, and `before` those under the id before.
  #noteWaiting({ client, own }) {
    let number = Number(client.acknowledged);
    for (const bytes of client.messages()) own.set(number += 1, changeOf(text(bytes)));
  }
  #noteEdit(player) {
    const { client, own, plain } = player, message = text(client.editMessage(client.waiting));
    own.set(Number(client.lastEdit), changeOf(message));
    plain.edit(JSON.parse(message)[3]);
  }
  #noteAnew(player) {
    const { own, reachedTo, savedTo } = player;
    Object.assign(player, { plainOn: false, before: { own, maybeTo: Math.max(reachedTo, savedTo) }, own: new Map(), savedTo: 0, reachedTo: 0 });
    this.#noteWaiting(player);
  }

  // Its first edit that waits changes nothing now; the document was heard again, up to another version.
  #noteReplaced(player) {
    const { client, own, plain } = player, number = Number(client.acknowledged) + 1;
    this.stat.replaced += 1;
    own.set(number, changeOf(text(client.editMessage(1))));
    if (!player.plainOn) return;
    plain.waiting[0] = JSON.parse(own.get(number));
    Object.assign(plain, { version: Number(client.version), base: this.server.stateAt(Number(client.version)).doc });
    assert.equal(client.text(), plain.text(), 'an edit that was replaced is laid over nothing');
  }

  // Another program goes on from a save: with edits that weren't sent yet, or that are under way. The first program may be away for long.
  async twin() {
    const original = pick(this.dice, this.players.filter((it) => it.client.id));
    if (!original) return;
    if (this.dice() < 0.5) this.cut(original, 3000);
    for (let k = Math.floor(this.dice() * 4); k; k -= 1) this.edit(original);
    const saved = original.client.save();
    trace('save', original.n, text(saved));
    original.savedTo = Number(original.client.lastEdit);
    const twin = await this.player(saved);
    for (const change of twin.own.values()) if (change.startsWith('["set"')) this.shared.add(JSON.parse(change)[3]);
  }

  // One of two programs with one id has edits under way while it hears of the other one's; or was away while the log grew or was hidden.
  race() {
    const one = this.players.find(({ n, client, link }) => link && client.id && this.players.some((it) => it.n !== n && it.client.id === client.id));
    if (!one) return;
    const other = this.players.find((it) => it !== one && it.client.id === one.client.id), isAway = this.dice() < 0.5;
    if (this.kinds.noes) this.server.trouble = 3;
    if (this.kinds.checkpoints && isAway && this.dice() < 0.5) { this.server.checkpoint(); this.run(this.now + 1000); }
    if (isAway) this.cut(one, 3000);
    for (let k = isAway ? 1 + Math.floor(this.dice() * 4) : 1; k; k -= 1) this.edit(other);
    this.run(this.now + 1.5 * other.delay + this.dice() * 2 * one.delay);
    if (isAway && this.dice() < 0.5) for (let k = 70; k; k -= 1) this.server.answer('["join",2]');
    else if (isAway && this.kinds.checkpoints) this.server.checkpoint();
    for (let k = 4; k; k -= 1) this.edit(one);
  }

  // ---- connections ----

  connect(player) {
    const link = player.link = { place: null, isTelling: false, lag: pick(this.dice, [0, 5, 5, 100, 1500]), isOpen: true, shownAt: -Infinity, up: this.now, down: this.now, lastUp: Infinity, stall: 0, until: null, rest: [], edits: [] };
    this.at(player.delay, () => { if (player.link !== link) return; player.flow.open(this.now); this.pump(player); });
  }

  // Of what has left some may still be read by the server, now or later; what comes back is not heard.
  cut(player, away = this.dice() < 0.2 ? 3000 : 300, stall = this.dice() < 0.3 ? this.dice() * 3000 : 0, until = null) {
    const { link } = player;
    if (!link) return;
    this.stat.cuts += 1;
    link.isOpen = false;
    link.lastUp = this.now + this.dice() * player.delay;
    Object.assign(link, { stall, until });
    player.quietAt = Math.max(player.quietAt, link.lastUp + link.stall);
    player.reachedTo = Math.max(player.reachedTo, ...link.edits);
    player.link = null;
    this.#endLater(link);
    player.flow.lost();
    player.presence.lost();
    this.#checkTold(player);
    assert.equal(player.known.size, 0, 'without a connection nobody is there');
    this.at(1 + this.dice() * away, () => this.connect(player));
  }

  // The server notices the end of a lost connection once it has read what it reads of it, or much later.
  #endLater(link) {
    const late = this.showDice() < 0.3 ? 5000 : 50, end = () => { if (link.rest.length) this.at(50, end); else { this.server.ended(link); this.tellAll(); } };
    this.at(Math.max(0, link.lastUp - this.now) + 1 + this.showDice() * late, end);
  }

  pump(player) {
    const { link, flow } = player;
    if (!link) return;
    for (const bytes of flow.outgoing(this.now)) {
      const due = Math.max(link.up, this.now + player.delay * (0.5 + this.dice())), message = text(bytes);
      link.up = due;
      if (message.startsWith('["here"')) this.#checkPace(link);
      if (message.startsWith('["edit"')) link.edits.push(JSON.parse(message)[2]);
      this.at(due - this.now, () => this.serve(player, link, message));
    }
    this.stat.most = Math.max(this.stat.most, flow.fifo.length);
    assert(flow.edits <= flow.window && flow.edits >= 0 && flow.bytes >= 0, 'the window is kept');
    assert(flow.fifo.filter(({ what }) => what === 'join').length < 2, 'one join is under way');
    const wait = flow.due(this.now), timer = player.timer += 1;
    if (wait !== null) this.at(Math.max(wait, 0.01), () => { if (player.link === link && player.timer === timer) this.pump(player); });
  }

  serve(player, link, message, isStalled = false) {
    if (link.lastUp < 0 || (!isStalled && this.now > link.lastUp)) return;
    if (!link.isOpen && link.stall && !isStalled) { this.#stall(player, link, message); return; }
    const before = this.server.version, answers = this.server.answer(message, link), [what, id, number] = JSON.parse(message);
    if (what === 'edit' && this.server.version > before) this.senders.set(this.server.version, { n: player.n, isLate: !link.isOpen });
    if (what === 'edit' && id === player.client.id && !/^\["no",[3489]/.test(answers[0])) player.reachedTo = Math.max(player.reachedTo, number);
    for (const answer of answers) this.#send(player, link, answer, what === 'edit');
    if (this.dice() < this.checkpointRate) this.server.checkpoint();
    this.tellAll();
  }

  #send(player, link, message, isOfEdit = false) {
    const { reachedTo } = player, due = Math.max(link.down, this.now + player.delay * (0.5 + this.dice()));
    link.down = due;
    this.at(due - this.now, () => this.hear(player, link, message, reachedTo, isOfEdit));
  }

  // What was published is told a little later on each live connection, between answers; more of it once that has left.
  tellAll() { for (const player of this.players) if (player.link?.place) this.#tell(player, player.link); }
  #tell(player, link) {
    if (link.isTelling || !this.server.hasNews(link)) return;
    link.isTelling = true;
    this.at(this.dice() * link.lag, () => {
      link.isTelling = false;
      if (player.link !== link) return;
      const told = this.server.told(link), isMore = told.length > 0;
      if (this.kinds.skips && this.dice() < 0.1 && !told[0]?.startsWith('["here"')) told.splice(Math.floor(this.dice() * told.length), 1);
      for (const message of told) this.#send(player, link, message);
      this.stat.unasked += told.length;
      if (isMore) this.#tell(player, link);
    });
  }

  // In place of the server stands an older one, or one that is live again.
  exchange() {
    for (const it of this.players) this.cut(it);
    this.server.isLive = !this.server.isLive;
    Object.assign(this.server, { hasHere: this.#hasHere(this.server.isLive), shown: [] });
  }

  // The server reads the rest of a lost connection later, or when it hurts most: when the client has looked through the log, or has gone on.
  #stall(player, link, message) {
    const { flow } = player, until = this.now + link.stall;
    const isTime = { looked: () => flow.anew?.scans && !flow.anew.looks, 'gone on': () => !flow.anew }[link.until] ?? (() => false);
    const read = () => {
      if (this.now < until && !isTime()) { this.at(5, read); return; }
      for (const it of link.rest.splice(0)) this.serve(player, link, it, true);
    };
    link.rest.push(message);
    if (link.rest.length === 1) this.at(0, read);
  }

  // A player hears an answer. When the server gave it, edits of the player up to `reachedTo` had reached it, or had been lost on the way.
  hear(player, link, answer, reachedTo, isOfEdit) {
    if (player.link !== link) return;
    this.stat.messages += 1;
    if (isOfEdit) link.edits.shift();
    if (this.kinds.twins && this.#isOfTwin(player, answer) && this.dice() < 0.5) for (let k = 4; k; k -= 1) this.edit(player);
    const { flow, client, plain } = player, isAnew = flow.anew, had = Number(client.acknowledged), { id } = client;
    flow.hear(Buffer.from(answer), this.now);
    traceEvents(flow, player.n);
    if (!isAnew && player.plainOn) plain.receive(JSON.parse(answer));
    if (client.id === id && answer.startsWith('["copy"')) checkCopy(this, player, had, reachedTo);
    for (const event of flow.events.splice(0)) this.#take(player, event, { id, had, look: isAnew });
    this.#checkTold(player);
    if (player.plainOn && !flow.anew) {
      assert.equal(client.version, plain.version, 'version');
      assert.equal(client.acknowledged, plain.acknowledged, 'acknowledged');
      if (this.dice() < 0.04) assert.equal(client.text(), plain.text(), 'the simple merge');
      assert(client.acknowledged >= had);
    }
    this.pump(player);
  }

  // Whether an answer is the entry of a twin's edit.
  #isOfTwin({ client, own, flow }, answer) {
    if (flow.anew || !answer.startsWith('["entry"')) return false;
    const [, , [author, number, change]] = JSON.parse(answer);
    return author === client.id && number === Number(client.acknowledged) + 1 && JSON.stringify(change) !== own.get(number);
  }

  #take(player, event, before) {
    if (event.type === 'anew') checkAnew(this, player, event, before);
    if (event.type === 'refused' && event.change) this.#takeReplaced(player, event);
    if (event.type === 'here') player.presence.heard(event.client, event.value);
    if (event.type !== 'state') return;
    assert.notEqual(event.state, 'fault', event.words);
    if (event.state === 'replaced') {
      assert(this.kinds.twins, 'no other program uses an id');
      if (this.kinds.noes) this.server.trouble = 3;
      if (this.dice() < 0.7) this.at(this.dice() * player.delay / 2, () => this.cut(player, 100, 8000, pick(this.dice, ['looked', 'gone on'])));
    }
    if (event.state === 'stranger') assert(this.kinds.back || this.kinds.behind, 'the server has one history');
  }

  // An edit that the server can't take is told, and its number stands for one that changes nothing.
  #takeReplaced({ client, own }, { number, name, change }) {
    if (name === 'too large') assert(change.length > 180, 'it is not too large');
    else assert.equal(JSON.parse(change)[2], 'unread');
    assert.deepEqual([name === 'too large' || name === 'unreadable', own.get(number), Number(client.acknowledged)], [true, '["clear",[0,0],"_"]', number - 1]);
    const [what, , , value] = JSON.parse(change);
    if (what === 'set') this.lost.add(value);
  }

  // ---- what happens ----

  // The server has an older log, under another identity: each link is told so by its guard, and begins anew.
  goBack() {
    for (const it of this.players) {
      it.plainOn = false;
      if (it.link) { const { link } = it; this.cut(it); Object.assign(link, { lastUp: -1, showsAs: null }); }
      trace('forget', it.n);
      it.flow.anew = null;
      it.flow.beginAnew('stranger', { scan: true });
    }
    this.server.back(Math.floor(this.server.version / 2));
  }

  // The server forgets an edit whose entry its client has, and of which nothing is under way any more; or such a client; or one that begins anew.
  fallBehind() {
    const anew = this.players.find(({ flow }) => flow.anew?.client.id), one = this.#heard();
    if (anew) this.server.strike(anew.flow.anew.client.id);
    else if (one && this.dice() < 0.7) this.server.forget(one.client.id);
    else if (one) this.server.strike(one.client.id);
    if (one) this.edit(one);
  }

  // In the end one client makes no edit any more: a copy alone says that the server is behind.
  fallBehindInTheEnd() {
    const one = this.#heard(), other = this.players.find((it) => it !== one);
    if (!one) return;
    this.server.forget(one.client.id);
    this.edit(other);
    this.run(this.now + 500);
    this.server.checkpoint();
    this.cut(one);
  }

  // A client that has heard of all its edits, and of which nothing is under way.
  #heard() {
    const { done } = this.server, isQuiet = ({ quietAt, link }) => quietAt < this.now && !link?.edits.length;
    const isHeard = (it) => isQuiet(it) && done.get(it.client.id) > 0 && done.get(it.client.id) === it.client.acknowledged;
    return pick(this.dice, this.players.filter(isHeard));
  }

  edit(player) {
    const { flow } = player, client = tracedClient(player.client, player.n);
    if (!client.id) return;
    const all = [...client.objects().values()], one = pick(this.dice, all), holder = pick(this.dice, all.filter((o) => o.kind !== 'shape' && o.kind !== 'text'));
    const roll = this.dice();
    this.stat.edits += 1;
    try {
      if (roll < 0.3 || all.length < 4) this.#create(client, holder);
      else if (roll < 0.75) this.#set(player, client, one);
      else if (roll < 0.8) client.clear(one.id, pick(this.dice, ['a', 'b', 'c']));
      else if (roll < 0.93) client.move(one.id, holder.id, pick(this.dice, [null, ...holder.children]));
      else client.delete(one.id);
      flow.wake(this.now);
      this.pump(player);
    } catch (fault) { if (!(fault instanceof ClientError)) throw fault; }
  }

  #create(client, holder) {
    const kind = holder.kind === 'document' ? 'page' : pick(this.dice, ['frame', 'shape', 'text']);
    if (this.dice() < 0.5) client.createLast(kind, holder.id); else client.create(kind, holder.id, pick(this.dice, [null, ...holder.children]));
  }

  #set(player, client, one) {
    const odd = this.kinds.noes && this.dice() < 0.03 ? pick(this.dice, ['large', 'unread']) : null;
    const value = `${this.seed}.${this.stat.edits}${odd === 'large' ? 'x'.repeat(400) : ''}`;
    client.set(one.id, odd === 'unread' ? 'unread' : pick(this.dice, ['a', 'b', 'c']), value);
    this.made.set(value, player.n);
  }

  // ---- presence ----

  // A player shows something else of itself, connected or not, sometimes several times at once.
  show(player) {
    const { showDice } = this;
    for (let burst = showDice() < 0.2 ? 5 : 1; burst; burst -= 1) {
      const k = this.stat.shown += 1;
      player.shows = pick(showDice, [null, k, `${k}`, { k, at: [1.5, player.n] }, [[], k, 'é"\\'], { k: { '}': ']' } }]);
      this.shown.add(JSON.stringify(player.shows));
      player.presence.set(player.shows);
    }
    this.pump(player);
  }

  #checkPace(link) {
    assert(this.now - link.shownAt >= 33, 'at most 30 a second are shown');
    link.shownAt = this.now;
  }

  // What the others show comes to what was told of them, each a value that was shown.
  #checkTold({ n, presence, told, known }) {
    if (!told.length) return;
    for (const { client, value } of told) {
      assert(this.shown.has(JSON.stringify(value)) || value === null, 'somebody has shown it');
      if (value === null) assert(known.delete(client), 'one who is there has gone'); else known.set(client, value);
    }
    assert.deepEqual(presence.others, known);
    const byId = (list) => list.sort(([a], [b]) => a - b);
    trace('presence', n, byId(told.splice(0).map(({ client, value }) => [client, value])), byId([...known]));
    this.stat.heard += 1;
  }

  // In the end each knows the last thing that each other one shows. Two programs with one id show one of theirs.
  #endShown() {
    if (!this.kinds.shows) return;
    for (const it of this.players) if (this.showDice() < 0.7) this.show(it);
    const knows = (one) => this.players.every((it) => {
      if (it.client.id === one.client.id) return true;
      const all = this.players.filter(({ client }) => client.id === it.client.id).map(({ shows }) => (this.server.hasHere ? shows : null));
      return all.some((shows) => JSON.stringify(one.known.get(it.client.id) ?? null) === JSON.stringify(shows));
    });
    const isDone = () => this.players.every((it) => it.link && knows(it));
    this.run(this.now + 15000, isDone);          // sooner than a connection is tried on which nothing comes
    const ids = new Set(this.players.map(({ client }) => client.id));
    const told = (it) => `${it.client.id} shows ${JSON.stringify(it.shows)} and knows ${JSON.stringify([...it.known])}`;
    assert(isDone() && this.players.every(({ known }) => [...known.keys()].every((id) => ids.has(id))), this.players.map(told).join('; '));
  }

  // ---- the run ----

  run(until, done = () => false) {
    for (let k = 0; k < 400000; k += 1) {
      const { first } = this.agenda;
      if (!first) return;
      if (first.time > until) { this.now = until; return; }
      const { time, act } = this.agenda.take();
      this.now = Math.max(this.now, time);
      act();
      if (done()) return;
    }
    throw new Error('it does not end');
  }

  async play() {
    for (let k = 2 + Math.floor(this.dice() * 2); k; k -= 1) await this.player();
    const steps = 20 + Math.floor(this.dice() * 60), middle = Math.floor(steps / 2), backAt = this.kinds.back ? middle : -1;
    for (let k = 0; k < steps; k += 1) {
      if (this.kinds.twins && this.players.length < 6 && this.dice() < 0.12) await this.twin();
      const player = pick(this.dice, this.players);
      for (let burst = this.dice() < 0.03 ? 80 : 1; burst; burst -= 1) this.edit(player);
      if (this.kinds.shows && this.showDice() < 0.5) this.show(pick(this.showDice, this.players));
      if (this.kinds.twins && this.dice() < 0.5) this.race();
      if (this.dice() < 0.06) this.cut(pick(this.dice, this.players));
      if (k === backAt) { for (const it of this.players) this.cut(it); this.run(this.now + 500); this.goBack(); }
      if (this.kinds.mixed && this.dice() < 0.06) this.exchange();
      if (this.kinds.behind && k >= middle && this.dice() < 0.3) this.fallBehind();
      if (this.kinds.full && k === steps - 3) this.server.isFull = true;
      this.run(this.now + this.dice() * 150);
    }
    return this.kinds.full ? this.#endFull() : this.#end();
  }

  #end() {
    if (this.kinds.behind && this.kinds.checkpoints) { this.run(this.now + 4000); this.fallBehindInTheEnd(); }
    const isSettled = () => this.players.every((p) => p.flow.isSettled && p.flow.unsent === 0 && p.client.version === this.server.version);
    this.run(this.now + 400000, isSettled);
    const told = (p) => `${p.client.id} ${p.flow.state} ${p.client.version}/${this.server.version} waits ${p.client.waiting} anew ${p.flow.anew?.step} fifo ${p.flow.fifo.length} due ${p.flow.due(this.now)}`;
    assert(isSettled(), `not settled: ${this.players.map(told)}`);
    for (const { client } of this.players) assert.equal(client.text(), this.server.text(), 'all show the server\'s document');
    checkOnce(this);
    this.#endShown();
    if (this.server.isLive && !this.kinds.skips && !this.kinds.behind && !this.kinds.twins) this.#endLive();       // a twin may be found out at any time
    return this.stat;
  }

  // In the end all are live: one edits, the others hear of it at once, and nobody asks.
  #endLive() {
    const one = this.players[0], slowest = Math.max(...this.players.map(({ delay }) => delay));
    this.server.trouble = 0;
    this.run(this.now + 30000, () => this.players.every(({ client, flow, link }) => link && flow.isLive && !flow.fifo.length && client.version === this.server.version));
    assert(this.players.every(({ flow }) => flow.isLive), `all are live: ${this.players.map(({ flow }) => flow.isLive)}`);
    this.run(this.now + 3000);          // what was under way on lost connections arrives
    for (const { link } of this.players) link.lag = 5;
    tracedClient(one.client, one.n).set('0:0', 'a', 'last');
    this.pump(one);
    this.run(this.now + 3.1 * slowest + 1500);
    for (const { client, flow } of this.players) assert(flow.isSettled && client.version === this.server.version, 'all have heard of an edit');
    const { asks } = this.server;
    this.run(this.now + 10000);
    assert.equal(this.server.asks, asks, 'nobody has asked');
  }

  #endFull() {
    this.run(this.now + 60000);
    for (const { client, flow } of this.players) if (Number(client.waiting)) assert(['full', 'connecting'].includes(flow.state), flow.state);
    return this.stat;
  }
}
