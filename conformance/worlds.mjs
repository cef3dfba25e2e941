// The worlds that are recorded. Each meets other rows of the merge table of docs/clients.md; rows.py counts them.
const ROOT = [0, 0];
const O = 'O';

// A page with a frame and three shapes that the speaker made, and two players that show it.
async function furnished(world) {
  const s = await world.speaker(), a = await world.player('a'), b = await world.player('b');
  const page = await s.create('page', ROOT, O), frame = await s.create('frame', page, O);
  const x = await s.create('shape', frame, O), y = await s.create('shape', frame, 'g'), z = await s.create('shape', page, 'g');
  for (const player of [a, b]) await player.enter();
  return { s, a, b, page, frame, x, y, z };
}

export const worlds = {
  // Two clients that do what people do, one after the other.
  async first(world) {
    const a = await world.player('a'), b = await world.player('b');
    a.create('page', ROOT);
    await a.enter();
    const page = a.create('page', ROOT), frame = a.create('frame', page);
    a.set(frame, 'name', 'Toolbar');
    await a.sync();
    await b.enter();
    const shape = b.create('shape', frame), text = b.create('text', frame, shape);
    b.set(shape, 'fill', ['rgba', 4278190335]);
    b.set(text, 'text', 'Hello');
    await b.sync();
    a.set(frame, 'x', 12);
    await a.sync();
    a.move(text, frame);
    a.move(shape, page, frame);
    a.clear(frame, 'x');
    await a.sync();
    b.delete(frame);
    b.set(shape, 'name', 'alone');
    await b.sync();
    await world.settle();
  },

  // What is shown of a property that a waiting edit writes, and of one that none does.
  async properties(world) {
    const { s, a, b, x, y, frame } = await furnished(world);
    for (const [name, own, foreign] of [['k1', 'set', 'set'], ['k2', 'set', 'clear'], ['k3', 'clear', 'set'], ['k4', 'clear', 'clear']]) {
      await s.set(x, name, 'before');
      await b.ask();
      await a.ask();
      if (own === 'set') a.set(x, name, 'mine'); else a.clear(x, name);
      if (foreign === 'set') await s.set(x, name, 'theirs'); else await s.clear(x, name);
      await s.set(x, `${name}_other`, 1);
      await s.set(y, name, 2);
      await a.ask();
      await a.send(1);
      await a.ask();
    }
    a.set(x, 'twice', 1);
    a.set(x, 'twice', 2);
    await a.send(1);
    await a.ask();
    await s.set(x, 'twice', 3);
    await a.ask();
    a.clear(ROOT, 'title');
    a.set(ROOT, 'title', 'A document');
    await s.set(ROOT, 'title', 'Another');
    await a.ask();
    await a.sync();
    a.delete(x);
    await s.set(x, 'late', 1);
    await s.clear(x, 'k1');
    await s.move(x, frame, 'k');
    await a.ask();
    await world.settle();
  },

  // What is shown of a place, and of creations and deletions that cross.
  async places(world) {
    const { s, a, b, page, frame, x, y, z } = await furnished(world);
    a.move(x, page);
    await s.move(x, frame, 'w');
    await a.ask();
    await a.sync();
    await s.move(x, frame, 'w');
    await s.move(y, frame, 'w');
    await a.ask();
    const other = await s.create('frame', page, 'w');
    await a.ask();
    const one = a.create('shape', other);
    await s.create('shape', other, O);
    await a.ask();
    await a.sync();
    const two = a.create('shape', other);
    a.move(two, page, frame);
    await a.send(1);
    await a.ask();
    await a.sync();
    a.move(z, other, one);
    await s.move(y, other, 'y');
    await a.sync();
    b.move(z, page, frame);
    await b.sync();
    b.move(frame, page, z);
    await s.create('shape', page, 'h');
    await s.move(z, page, 'h');
    await b.ask();
    await world.settle();
  },

  async creations(world) {
    const { s, a, page, frame, y, z } = await furnished(world);
    const gone = a.create('shape', page);
    a.delete(gone);
    await a.send(1);
    await a.ask();
    await a.sync();
    const lost = a.create('shape', frame), below = a.create('frame', frame, lost);
    a.set(lost, 'name', 'lost');
    a.clear(lost, 'name');
    const inner = a.create('shape', below);
    a.move(lost, frame, below);
    a.delete(lost);
    await s.delete(frame);
    await a.ask();
    a.set(inner, 'name', 'not shown');
    await a.sync();
    a.set(z, 'name', 'late');
    a.clear(z, 'name');
    a.move(z, page);
    a.delete(z);
    const orphan = a.create('shape', page);
    await s.delete(z);
    await s.delete(page);
    await a.ask();
    await a.sync();
    a.set(orphan, 'name', 'no more');
    a.set(y, 'name', 'no more');
    await world.settle();
  },

  async removals(world) {
    const { s, a, b, page, frame, x, y, z } = await furnished(world);
    a.delete(x);
    a.move(y, page, frame);
    const inside = a.create('shape', frame);
    a.move(z, frame, inside);
    b.set(x, 'name', 'kept here');
    b.delete(frame);
    await s.delete(frame);
    await a.ask();
    await s.set(z, 'name', 'hidden');
    await s.move(z, page, 'w');
    await a.ask();
    await a.sync();
    await b.sync();
    const again = a.create('frame', page), child = a.create('shape', again);
    await a.sync();
    await b.ask();
    b.delete(again);
    a.set(child, 'name', 'below');
    await a.sync();
    await b.ask();
    await b.sync();
    const last = await s.create('frame', page, 'y'), alone = await s.create('shape', page, 'z');
    await a.ask();
    a.move(alone, last);
    a.delete(alone);
    await s.delete(last);
    await a.sync();
    await world.settle();
  },

  // Two moves that make a cycle until the server has judged them; what happens meanwhile to what isn't in the tree.
  async cycles(world) {
    const { s, a, b, page, frame, x } = await furnished(world);
    const other = await s.create('frame', page, 'm'), third = await s.create('frame', page, 'q');
    await a.ask();
    await b.ask();
    a.move(other, frame);
    await s.move(frame, other, O);
    await a.ask();
    await s.set(frame, 'name', 'set while hidden');
    await s.set(x, 'name', 'below it');
    const born = await s.create('shape', other, 'w');
    await s.move(x, frame, 'z');
    await a.ask();
    a.set(frame, 'name', 'not shown');
    a.delete(other);
    await a.sync();
    b.set(frame, 'size', 1);
    await b.sync();
    a.move(third, frame);
    b.move(frame, third);
    await a.sync();
    await s.set(third, 'name', 'third');
    await s.clear(frame, 'name');
    await s.delete(born);
    await b.ask();
    await b.sync();
    const home = await s.create('frame', page, 'u');
    await a.ask();
    a.move(other, home);
    a.set(other, 'kept', true);
    await s.delete(home);
    await s.set(other, 'name', 'below what is gone');
    await s.move(other, page, 'c');
    await a.ask();
    await s.set(other, 'kept', false);
    await a.ask();
    await world.settle();
  },

  // Each reason for which a request is refused, of the client's own and of others'; and what the client refuses by itself.
  async refusals(world) {
    const { s, a, b, page, frame, x, y, z } = await furnished(world);
    a.move(ROOT, page);
    a.delete(ROOT);
    a.set([9, 9], 'name', 'nobody');
    a.create('shape', [9, 9]);
    a.create('page', page);
    a.create('shape', x);
    a.create('document', ROOT);
    a.create('shape', page, x);
    a.move(frame, frame);
    a.move(x, y);
    a.set(x, 'Name', 1);
    a.set(x, '', 1);
    a.setJson(x, 'name', '1.5');
    a.setJson(x, 'name', '["rgba",4294967296]');
    const nested = (depth) => '["list",'.repeat(depth - 1) + '["list"]' + ']'.repeat(depth - 1);
    a.setJson(x, 'deep', nested(17));
    a.setJson(x, 'deep', nested(16));
    a.set(z, 'mine', 1);
    await s.change(['create', ROOT, 'page', [ROOT, O]]);
    await s.move(ROOT, page, O);
    await s.delete(ROOT);
    await s.change(['create', page, 'page', [ROOT, 'w']]);
    await s.change(['create', [99, 1], 'page', [ROOT, 'w']]);
    for (const change of [['set', [9, 9], 'name', 1], ['clear', [9, 9], 'name'], ['move', [9, 9], [page, O]], ['delete', [9, 9]]]) await s.change(change);
    await s.move(z, [9, 9], O);
    await s.change(['create', [s.id, 50], 'shape', [[9, 9], O]]);
    await s.change(['create', [s.id, 50], 'shape', [x, O]]);
    await s.move(frame, ROOT, O);
    await s.move(frame, frame, O);
    await a.ask();
    a.move(z, frame, y);
    await s.move(z, z, O);
    await s.move(frame, y, O);
    await s.move(z, [9, 9], O);
    await a.ask();
    await a.sync();
    await b.ask();
    const full = await s.create('frame', page, 'w');
    await b.ask();
    b.create('shape', full);
    b.move(z, full);
    await s.create('shape', full, O);
    await s.create('shape', full, `O${' '.repeat(126)}!`);
    await s.move(x, full, '7');
    await s.move(y, full, `7${' '.repeat(126)}!`);
    await s.move(z, full, '7');
    await s.change(['create', [s.id, 90], 'shape', [full, O]]);
    await b.ask();
    await b.sync();
    await a.ask();
    a.create('shape', full, x);
    await world.settle();
  },

  async deep(world) {
    const s = await world.speaker(), a = await world.player('a');
    const page = await s.create('page', ROOT, O), chain = [await s.create('frame', page, O)];
    for (let depth = 3; depth <= 98; depth++) chain.push(await s.create('frame', chain.at(-1), O));
    const other = await s.create('frame', page, 'g'), pair = await s.create('frame', page, 'w');
    await s.create('shape', pair, O);
    await world.restart();
    await a.enter();
    const low = a.create('frame', chain.at(-1));
    a.create('shape', low);
    a.move(pair, chain.at(-1), low);
    a.create('shape', a.create('frame', low));
    a.move(pair, low);
    await s.move(chain[0], other, O);
    await a.ask();
    await a.sync();
    await s.move(pair, chain.at(-1), 'w');
    await s.change(['create', [s.id, 900], 'shape', [chain.at(-1), 'z']]);
    await s.change(['create', [s.id, 901], 'frame', [[s.id, 900], 'z']]);
    await s.delete(chain[40]);
    await world.settle();
  },

  // A client that comes back after the server has forgotten the entries: it gets a copy, and lays what waits over it.
  async copies(world) {
    const { s, a, b, page, frame, x, y, z } = await furnished(world);
    a.set(x, 'name', 'one');
    a.set(x, 'name', 'two');
    const made = a.create('shape', frame), second = a.create('frame', page);
    a.set(made, 'name', 'made');
    a.move(z, second);
    a.clear(y, 'name');
    a.delete(x);
    a.set(ROOT, 'title', 'mine');
    await s.set(y, 'name', 'theirs');
    await s.set(x, 'name', 'theirs');
    await s.set(ROOT, 'title', 'theirs');
    await a.send(1);
    await a.send(2);
    await a.send(3);
    await world.restart();
    await a.ask({ twice: [0] });
    await s.set(y, 'name', 'later');
    await s.move(z, page, 'y');
    await world.restart();
    await a.ask({ hold: [0] });
    await s.set(y, 'other', 1);
    await a.ask();
    a.release();
    await a.sync();
    b.set(y, 'mine', 1);
    b.move(y, page, frame);
    b.create('shape', frame);
    b.clear(z, 'name');
    b.delete(made);
    b.move(z, page);
    await s.delete(frame);
    await s.delete(z);
    await world.restart();
    await b.ask();
    await b.sync();
    await a.ask();
    await world.settle();
  },

  // Answers of which parts are lost, come twice, or come late; edits that are sent again, and too early.
  async lost(world) {
    const { s, a, b, page, frame, x } = await furnished(world);
    for (let k = 0; k < 6; k++) await s.set(x, `n${k}`, k);
    await a.ask({ lose: [0] });
    await a.ask({ lose: [2], twice: [0, 1] });
    await a.ask({ hold: [0, 2] });
    a.set(x, 'n1', 'mine');
    await a.ask({ lose: [1] });
    a.release();
    a.set(frame, 'name', 'first');
    a.delete(x);
    await a.send(2);
    await a.send(1, { lose: 'all' });
    await a.send(1);
    await a.send(2);
    await a.send(3);
    await a.send(3);
    await a.ask({ lose: [0] });
    await a.ask({ lose: 'all' });
    await s.set(frame, 'name', 'second');
    await a.ask({ twice: [0, 1, 2, 3] });
    b.create('shape', page, frame);
    await b.sendAll({ lose: 'all' });
    await b.ask({ hold: [0, 1, 2, 3, 4, 5, 6, 7] });
    b.release();
    await b.ask({ hold: [3] });
    await b.ask();
    b.release();
    await world.settle();
  },

  // What a live connection brings: messages that nobody has asked for, between the answers to edits that were sent ahead.
  async unasked(world) {
    const { s, a, b, page, frame, x, y } = await furnished(world);
    await s.set(x, 'fill', 1);
    await a.told();
    a.set(x, 'fill', 2);
    a.set(frame, 'name', 'mine');
    a.move(y, page);
    for (const i of [1, 2, 3]) await a.sendAhead(i);
    b.set(x, 'fill', 3);
    await b.send(1);
    a.hearHeld(1);
    await a.told(1);
    a.set(x, 'fill', 4);
    a.hearHeld(2);
    await a.told(2);
    await b.told();
    await s.set(frame, 'name', 'theirs');
    await s.move(y, frame, 'k');
    await a.told(64, { lose: [0] });
    await a.told();
    await a.sendAhead(1);
    const made = b.create('shape', frame, x);
    b.set(made, 'fill', 5);
    await b.sendAhead(1);
    await b.sendAhead(2);
    b.hearHeld(2);
    await b.told();
    a.hearHeld(1);
    await a.told(2);
    a.delete(made);
    await a.told();
    a.create('frame', page);
    await s.set(page, 'name', 'hidden by a copy');
    await world.restart();
    await a.told();
    await b.told();
    await world.settle();
  },

  // Edits under way where a connection is lost: of some the answers never came, others were never read, and more were made. All are sent again.
  async loss(world) {
    const { s, a, b, page, frame, x, y, z } = await furnished(world);
    a.set(x, 'fill', 1);
    const made = a.create('shape', frame, x);
    a.move(y, page);
    a.delete(z);
    await a.send(1, { lose: 'all' });
    await a.send(2, { lose: 'all' });
    for (const i of [3, 4]) a.sendInVain(i);
    await a.reconnect();
    b.set(x, 'fill', 2);
    b.set(z, 'fill', 3);
    b.move(y, frame, x);
    await b.sendAll();
    a.set(made, 'fill', 4);
    for (const i of [1, 2, 3, 4, 5]) await a.sendAhead(i);
    await a.told(3);
    a.hearHeld(2);
    a.set(x, 'fill', 5);
    a.hearHeld(3);
    await a.ask();
    await a.send(1, { lose: 'all' });
    a.clear(made, 'fill');
    a.sendInVain(2);
    await a.reconnect();
    await s.set(made, 'fill', 6);
    await world.restart();
    await a.ask();
    for (const i of [1]) await a.sendAhead(i);
    a.hearHeld(1);
    await b.ask();
    await world.settle();
  },

  // Messages that aren't for this client, or come at a wrong time: made by hand, and heard by the proved client.
  async strange(world) {
    const a = await world.player('a');
    const rows = (version, done) => `["copy",${version},${done},[[[0,0],"document",null,[["title","a copy"]]],[[7,1],"page",[[0,0],"O"],[]]]]`;
    a.hear('["entry",1,[0,0,"join",["joined",1]]]');
    a.hear(rows(9, 0));
    a.hear('["idle"]');
    for (const reason of [1, 3, 4, 5, 6, 7, 8, 9]) a.hear(`["no",${reason}]`);
    await a.join();
    a.hear('["welcome",1]');
    a.hear('["welcome",2]');
    await a.ask();
    const page = a.create('page', ROOT);
    a.set(page, 'name', 'mine');
    const creation = `["create",[1,1],"page",[[0,0],"O"]]`, created = '["created",[[0,0],"O"]]';
    a.hear(`["entry",2,[1,2,${creation},${created}]]`);
    a.hear(`["entry",2,[1,1,["create",[1,1],"page",[[0,0],"P"]],${created}]]`);
    a.hear('["entry",2,[1,1,["delete",[1,1]],["removed",[[1,1]]]]]');
    a.hear(`["entry",3,[2,1,${creation},${created}]]`);
    a.hear('["entry",4611686018427387904,[0,0,"join",["joined",2]]]');
    a.hear('["entry",1,[0,0,"join",["joined",1]]]');
    a.hear(rows(9, 3));
    a.hear(rows(1, 0));
    a.hear(rows(0, 0));
    await a.sync();
    a.hear(rows(9, 1));
    a.hear('["entry",4,[1,3,["set",[1,1],"name",1],["wasset"]]]');
    a.set(page, 'name', 'again');
    await world.settle();
  },

  // Values of each kind, and texts that are read and written with care.
  async values(world) {
    const { s, a, b, x } = await furnished(world);
    const values = ['0', '-1', '9007199254740993', '9223372036854775807', '-9223372036854775808', 'true', 'false', '""', '"a \\"b\\" \\\\ / \\b\\f\\n\\r\\t"',
      '"\\u0001\\u001f\\u007f"', '"\u00e9\u4e2d\u{1f600}"', '"\\ud83d\\ude00 \\u00e9"', '["rgba",0]', '["rgba",4294967295]', '["list"]', '["list",["list",1,"two",["rgba",3]],true]', '[ "list" , 1 ]'];
    for (const [k, value] of values.entries()) {
      if (k % 2) a.setJson(x, `v${k}`, value);
      else await s.change(`["set",[${x}],"v${k}",${value}]`);
    }
    a.set(x, 'z_09', 'a name of each kind of byte');
    a.set(x, 'n'.repeat(32), 1);
    await b.ask();
    await world.settle();
  },
};

// The objects of a client's tree, each before its children: an order that the tree alone decides, so that a world can be played again.
function inOrder(client, id = '0:0') {
  const object = client.object(id);
  return [object, ...object.children.flatMap((child) => inOrder(client, child))];
}

// Two players and a speaker that do anything at all, in an order that the seed gives.
export function anything(seed, steps) {
  return async (world) => {
    let state = seed;
    const below = (n) => { state = (Math.imul(state, 1103515245) + 12345) & 0x7fffffff; return (state >> 8) % n; };
    const any = (list) => list[below(list.length)];
    const { s, a, b, page } = await furnished(world);
    const act = (player) => {
      const objects = inOrder(player.client), object = any(objects), holder = any(objects);
      const id = object.id.split(':').map(Number), into = holder.id.split(':').map(Number);
      const after = holder.children.length && below(2) ? any(holder.children).split(':').map(Number) : null;
      [() => player.create(any(['page', 'frame', 'shape', 'text']), into, after), () => player.create(any(['frame', 'shape']), into, after),
        () => player.set(id, any(['p', 'q']), below(100)), () => player.clear(id, any(['p', 'q'])), () => player.move(id, into, after), () => player.move(id, into, after),
        () => player.delete(below(3) ? id : into)][below(objects.length > 14 ? 7 : 6)]();
    };
    const speak = async () => {
      const objects = inOrder(a.client).filter(({ kind }) => kind !== 'document'), object = any(objects), holder = any(objects);
      if (!object) return;
      const id = object.id.split(':').map(Number), into = holder.id.split(':').map(Number);
      await [() => s.create('shape', into, any(['O', 'g', '7'])), () => s.set(id, any(['p', 'q']), below(100)), () => s.clear(id, 'p'), () => s.move(id, into, any(['O', 'g', '7'])), () => s.create('frame', page, any(['a', 'b']))][below(5)]();
    };
    for (let step = 0; step < steps; step++) {
      const player = any([a, b]);
      const how = below(3) ? {} : { lose: [below(4)], twice: [below(4)], hold: [below(5)] };
      await [() => act(player), () => act(player), () => act(player), speak, () => player.client.waiting && player.send(1 + below(Math.min(player.client.waiting, 2)), how),
        () => player.ask(how), () => player.sync(), () => player.release(), () => below(12) || world.restart()][below(9)]();
    }
    for (const player of [a, b]) player.release();
    await world.settle();
  };
}
