// A world to be recorded: a server, clients that are the proved one, and a speaker that sends whatever it likes. For each client a vector.
import { readFileSync } from 'node:fs';
import { Client, ClientError, compile } from '../packages/js/src/node.js';
import { Server } from '../tests/web/server.mjs';

const MODULE = new URL('../packages/js/canvas.wasm', import.meta.url);
let compiled = null;
const newClient = async () => Client.load(compiled ??= await compile(readFileSync(MODULE)));

// A connection on which one message is sent and its answer heard, up to a welcome, an idle or a no. Messages are texts.
class Connection {
  static open(url) {
    return new Promise((resolve, reject) => {
      const socket = new WebSocket(url);
      socket.binaryType = 'arraybuffer';
      socket.onopen = () => resolve(new Connection(socket));
      socket.onerror = () => reject(new Error('no connection'));
    });
  }

  constructor(socket) {
    this.socket = socket;
    this.parts = [];
    socket.onmessage = ({ data }) => {
      const text = Buffer.from(data).toString();
      this.parts.push(text);
      if (/^\["(welcome|idle|no)"/.test(text)) this.answered(this.parts.splice(0));
    };
    socket.onclose = () => this.lost?.(new Error('the server has closed the connection'));
  }

  round(message) {
    return new Promise((resolve, reject) => {
      this.answered = resolve;
      this.lost = reject;
      this.socket.send(Buffer.from(message));
    });
  }

  close() { this.lost = null; this.socket.close(); }
}

// Sends changes as they are, whatever the rules say of them.
class Speaker {
  constructor(connection, id) { Object.assign(this, { connection, id, number: 0, counter: 0 }); }

  static async join(url) {
    const connection = await Connection.open(url), [welcome] = await connection.round('["join",2]');
    return new Speaker(connection, JSON.parse(welcome)[1]);
  }

  async change(change) {
    this.number += 1;
    const answer = await this.connection.round(`["edit",${this.id},${this.number},${typeof change === 'string' ? change : JSON.stringify(change)}]`);
    if (answer.at(-1) !== '["idle"]') throw new Error(`${JSON.stringify(change)} was answered ${answer}`);
  }

  async create(kind, parent, position) {
    this.counter += 1;
    const id = [this.id, this.counter];
    await this.change(['create', id, kind, [parent, position]]);
    return id;
  }

  set(id, name, value) { return this.change(['set', id, name, value]); }
  clear(id, name) { return this.change(['clear', id, name]); }
  move(id, parent, position) { return this.change(['move', id, [parent, position]]); }
  delete(id) { return this.change(['delete', id]); }
}

const word = (id) => id.join(':');
const ids = (text) => text.split(':').map(Number);

// A proved client, and what it did and heard.
class Player {
  constructor(world, name, client, connection) { Object.assign(this, { world, name, client, connection, lines: [], shown: null, held: [] }); }

  write(line) {
    this.lines.push(line);
    const { version, acknowledged, waiting } = this.client, text = this.client.text();
    const view = `["view",${version},${acknowledged},${waiting},${JSON.stringify(text)}]`;
    if (view !== this.shown) this.lines.push(view);
    this.shown = view;
  }

  // Makes an edit, and writes it, or that the client refuses it. Answers a created object's id.
  edit(request, make) {
    try {
      const made = make(this.client);
      const message = Buffer.from(this.client.editMessage(this.client.waiting)).toString();
      this.write(`["edit",${/^\["edit",\d+,\d+,(.*)\]$/s.exec(message)[1]},${request}]`);
      return made;
    } catch (fault) {
      if (!(fault instanceof ClientError)) throw fault;
      this.write(`["refused",${request},${JSON.stringify(fault.code)}]`);
      return null;
    }
  }

  create(kind, parent, after = null) {
    const made = this.edit(JSON.stringify(['create', kind, parent, after]), (client) => client.create(kind, word(parent), after && word(after)));
    return made && ids(made);
  }
  set(id, name, value) { return this.setJson(id, name, JSON.stringify(value)); }
  setJson(id, name, json) { this.edit(`["set",${JSON.stringify(id)},${JSON.stringify(name)},${json}]`, (client) => client.setJson(word(id), name, json)); }
  clear(id, name) { this.edit(JSON.stringify(['clear', id, name]), (client) => client.clear(word(id), name)); }
  move(id, parent, after = null) { this.edit(JSON.stringify(['move', id, parent, after]), (client) => client.move(word(id), word(parent), after && word(after))); }
  delete(id) { this.edit(JSON.stringify(['delete', id]), (client) => client.delete(word(id))); }

  hear(message) {
    const heard = this.client.receive(message).what;
    this.write(`["receive",${message},"${heard}"]`);
  }

  // Sends a message, and hears its answer: but for the parts, counted from 0, that are lost or held back, and some twice.
  async round(message, { lose = [], twice = [], hold = [] } = {}) {
    this.lines.push(`["send",${message}]`);
    const answer = await this.connection.round(message);
    answer.forEach((part, at) => {
      if (hold.includes(at)) this.held.push(part);
      else if (lose !== 'all' && !lose.includes(at)) for (let k = twice.includes(at) ? 2 : 1; k; k--) this.hear(part);
    });
    return answer;
  }

  // Hears what was held back, the last one first.
  release() { for (const part of this.held.splice(0).reverse()) this.hear(part); }

  // Sends the i-th of the edits that wait, before the answers to those before it have come; hears so many of these answers.
  sendAhead(i) { return this.send(i, { hold: [0] }); }
  hearHeld(count) { for (const part of this.held.splice(0, count)) this.hear(part); }

  // Sends it over a connection that is lost before the server reads it.
  sendInVain(i) { this.lines.push(`["send",${Buffer.from(this.client.editMessage(i)).toString()}]`); }

  // Hears what a live server tells unasked: so many messages of what comes after the version, but for those that are lost. The world asks for it.
  async told(count = 64, { lose = [] } = {}) {
    const answer = await this.connection.round(Buffer.from(this.client.askMessage()).toString());
    answer.slice(0, -1).slice(0, count).forEach((part, at) => { if (!lose.includes(at)) this.hear(part); });
  }

  async reconnect() {
    this.connection.close();
    this.connection = await Connection.open(this.world.server.url);
  }

  join(how) { return this.round(Buffer.from(this.client.joinMessage()).toString(), how); }
  ask(how) { return this.round(Buffer.from(this.client.askMessage()).toString(), how); }
  send(i, how) { return this.round(Buffer.from(this.client.editMessage(i)).toString(), how); }
  async sendAll(how) { for (let i = 1, count = this.client.waiting; i <= count; i++) await this.send(i, how); }
  async sync(how) { await this.sendAll(); await this.ask(how); }
  async enter() { await this.join(); await this.ask(); }
}

export class World {
  static async play(name, program, script) {
    const world = new World(name, await Server.start(program));
    try {
      await script(world);
      return new Map(world.players.map((player) => [`${name}-${player.name}`, player.lines]));
    } finally {
      for (const { connection } of [...world.players, ...world.speakers]) connection.close();
      await world.server.end();
    }
  }

  constructor(name, server) { Object.assign(this, { name, server, players: [], speakers: [] }); }

  async player(name) {
    const player = new Player(this, name, await newClient(), await Connection.open(this.server.url));
    player.write('["begin"]');
    this.players.push(player);
    return player;
  }

  async speaker() {
    const speaker = await Speaker.join(this.server.url);
    this.speakers.push(speaker);
    return speaker;
  }

  // The server is killed and started anew: who asks for what it has made into a checkpoint gets a copy.
  async restart() {
    for (const one of [...this.players, ...this.speakers]) one.connection.close();
    await this.server.restart();
    for (const one of [...this.players, ...this.speakers]) one.connection = await Connection.open(this.server.url);
  }

  // All players hear all, and each shows what the folder holds: else the world is no vector.
  async settle() {
    for (let pass = 0; pass < 2; pass++) for (const player of this.players) await player.sync();
    for (const player of this.players) for (let k = 0; k < 40 && player.client.version !== this.server.show().version; k++) await player.ask();
    const { version, tree } = this.server.show();
    for (const { name, client } of this.players) {
      if (client.version !== version || client.waiting || client.text() !== tree) throw new Error(`${this.name}: ${name} does not show what the server has`);
    }
  }
}
