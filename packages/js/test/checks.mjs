// What is checked of a world (world.mjs) by those who know more than a client does: the server's whole log, and who sent each edit.
import assert from 'node:assert';
import { judge } from './fake.mjs';

const valueOf = (change) => (change[0] === 'set' ? change[3] : null);
const word = (id) => id.join(':');

// The entries of an id by their numbers: { change, version }.
function entriesOf(server, id) {
  const found = new Map();
  server.log.forEach(([author, number, change], k) => { if (author === id) found.set(number, { change: JSON.stringify(change), version: k + 1 }); });
  return found;
}

// Whether a document has what a change did.
function isShown(doc, [what, id, ...rest]) {
  const object = doc.get(word(id));
  if (what === 'delete') return !object;
  if (what === 'clear') return !object?.props.has(rest[0]);
  if (!object) return false;
  if (what === 'create') return object.kind === rest[0];
  if (what === 'move') return JSON.stringify(object.place) === JSON.stringify(rest[0]);
  return JSON.stringify(object.props.get(rest[0])) === JSON.stringify(rest[1]);
}

// A client has heard a copy. Of the edits that it takes for judged each was, or a twin's was under its number: which no client can see if an edit
// of this program may have been judged under it. Those are counted.
export function checkCopy(world, player, had, reachedTo) {
  const { client, own } = player, acknowledged = Number(client.acknowledged);
  if (acknowledged === had || world.kinds.back) return;
  assert(acknowledged <= Math.max(had, reachedTo), `of ${client.id} ${acknowledged} edits are taken for judged, and ${reachedTo} can be`);
  const entries = entriesOf(world.server, client.id);
  for (let number = had + 1; number <= acknowledged; number += 1) {
    if (entries.get(number).change === own.get(number)) continue;
    assert(world.kinds.twins && world.kinds.checkpoints, 'each edit that is taken for judged was');
    world.stat.hidden += 1;
    const value = valueOf(JSON.parse(own.get(number)));
    if (value) world.hidden.add(value);
  }
}

// A client has begun anew. Goes through the edits that waited as one who has read the log: what wasn't judged must have been made again, with the
// ids of the objects that were made again, or told: as lost if the server would refuse it then, or as unsure if nobody could know.
export function checkAnew(world, player, event, { id, had, look }) {
  const remade = new Remade(world, player, event, id, look);
  const { own } = player.before;
  for (let number = had + 1; own.has(number); number += 1) remade.check(number, own.get(number));
  remade.end();
  world.stat.anew += 1;
  world.stat.made += event.made;
  world.stat.lost += event.lost.length;
  world.stat.unsure += event.unsure.length;
  for (const [list, values] of [[event.lost, world.lost], [event.unsure, world.unsure]]) {
    for (const { change } of list) { const value = valueOf(JSON.parse(change)); if (value) values.add(value); }
  }
}

class Remade {
  // `look` is what the client's look through the log has found.
  constructor(world, player, event, id, look) {
    const { server } = world, { client, before } = player;
    Object.assign(this, { world, before, event, look, id: client.id, version: Number(client.version), ids: new Map() });
    this.entries = entriesOf(server, id);
    assert(look.done === 0n || (world.kinds.checkpoints && look.done <= (server.done.get(id) ?? 0)), 'a copy is heard where there are checkpoints');
    Object.assign(this, server.stateAt(this.version));
    this.shown = server.stateAt(this.version).doc;                 // stays as it is, while `doc` gets what is made again
    this.made = [...player.own.values()].map((text) => JSON.parse(text));
    this.lost = [...event.lost];
    this.unsure = [...event.unsure];
    assert.equal(this.made.length, event.made, 'as many are made again as it says');
  }

  check(number, text) {
    const entry = this.entries.get(number), change = JSON.parse(text), isFound = this.look.found.has(String(number));
    // It may be judged if it was sent, or is in a save. A twin may make the very same edit, too.
    const maybe = number <= this.before.maybeTo, isJudged = entry?.change === text && entry.version <= this.version && (maybe || isFound);
    const isHidden = number <= this.look.done && !isFound && maybe;            // a copy has hidden whose edit of this number was judged
    if (isHidden && !isShown(this.shown, change)) this.#unsure(text);
    else if (!isHidden && !isJudged) this.#open(text, change);
  }

  // An edit that wasn't judged up to this version: it must be made again, or lost.
  #open(text, change) {
    const { looked } = this.world, value = valueOf(change);
    if (value) looked.set(value, Math.max(this.version, looked.get(value) ?? 0));
    if (this.lost[0]?.change === text) this.#lost(this.lost.shift(), change);
    else this.#made(change);
  }

  #unsure(text) {
    const { twins, back } = this.world.kinds;
    assert(twins || back, 'nothing is unsure without a twin');
    assert.equal(this.unsure.shift()?.change, text, 'nobody can know, and it is not told');
  }

  // What it must be, made again.
  #now([what, id, ...rest]) {
    const at = (old) => (this.ids.get(word(old)) ?? word(old)).split(':').map(Number);
    if (what === 'create') return [what, null, rest[0], [at(rest[1][0]), rest[1][1]]];
    if (what === 'move') return [what, at(id), [at(rest[0][0]), rest[0][1]]];
    return [what, at(id), ...rest];
  }

  #lost({ code }, change) {
    const now = this.#now(change);
    if (now[0] === 'create') now[1] = [this.id, (this.counters.get(this.id) ?? 0) + 1];
    const [outcome] = judge(this.doc, this.counters, this.id, now);
    assert.equal(outcome, 'refused', `${JSON.stringify(change)} is told to be lost by ${code}, and could be made again`);
  }

  #made(change) {
    const now = this.#now(change), made = this.made.shift();
    assert(made?.[0] === change[0], `${JSON.stringify(change)} was neither judged, nor made again, nor told`);
    const [what, id, ...rest] = made;
    if (what === 'create') { assert.equal(id[0], this.id); this.ids.set(word(change[1]), word(id)); now[1] = id; }
    const place = { create: 1, move: 0 }[what], outcome = judge(this.doc, this.counters, this.id, made);
    assert.notEqual(outcome[0], 'refused', `${JSON.stringify(made)} is made again, and can't be`);
    if (place !== undefined) now[place + 2][1] = rest[place][1];                 // another position where its own was taken
    assert.deepEqual(made, now, `${JSON.stringify(made)} is made again in place of ${JSON.stringify(now)}`);
  }

  end() {
    for (const [name, list] of Object.entries({ made: this.made, lost: this.lost, unsure: this.unsure })) assert.equal(list.length, 0, `more is ${name}: ${JSON.stringify(list[0])}`);
    assert.deepEqual(new Map(this.event.ids), this.ids, 'the ids of objects that were made again');
  }
}

// Each client's edits stand in the log in the order of their numbers. Each value that was set stands there once, as each set has another one.
export function checkOnce(world) {
  const numbers = new Map(), values = new Map();
  world.server.log.forEach(([author, number, change], k) => {
    if (!author) return;
    assert.equal(number, (numbers.get(author) ?? 0) + 1);
    numbers.set(author, number);
    if (change[0] === 'set') values.set(change[3], [...(values.get(change[3]) ?? []), k + 1]);
  });
  if (world.kinds.back) return;                        // an older log has lost some
  for (const value of world.made.keys()) {
    const isTold = world.lost.has(value) || world.unsure.has(value);
    assert(values.has(value) || isTold || world.hidden.has(value), `${value} stands nowhere, and wasn't told`);
  }
  for (const [value, versions] of values) checkTimes(world, value, versions);
}

// Whoever stands in the log more often than once, or was told to be lost and stands there, is of a class that no client can see, and is counted.
// `late`: it stood in the buffers of a lost connection, and was judged after its client had looked for it.
// `both`: it waited in a save, and a program that had it began anew, and made it again or told it to be lost, before another one had sent it.
// That each made it again only if it wasn't judged by then, checkAnew has seen.
function checkTimes(world, value, versions) {
  const more = versions.length - (world.lost.has(value) ? 0 : 1);
  if (more <= 0) return;
  const looked = world.looked.get(value) ?? Infinity, isLate = (version) => world.senders.get(version).isLate && version > looked;
  const late = Math.min(more, versions.filter(isLate).length), players = versions.filter((version) => !isLate(version)).map((version) => world.senders.get(version).n);
  const isBoth = world.shared.has(value) && new Set(players).size === players.length;
  assert(isBoth || late === more, `${value} stands ${versions.length} times in the log`);
  world.stat.late += late;
  world.stat.both += more - late;
}
