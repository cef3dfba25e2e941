#!/usr/bin/env node
// notes.mjs [URL]: makes a page with a note, and prints what changes until it is interrupted.
import { Client, Colour, Link, ROOT } from 'lugcurrant';

const client = await Client.load();
const link = new Link(client, process.argv[2] ?? 'ws://127.0.0.1:7411/', { state: ({ state, words }) => console.error(state, words) });
await link.ready;

const page = client.children(ROOT)[0] ?? client.createLast('page', ROOT);
const note = client.createLast('text', page);
client.set(note, 'text', 'A note from JavaScript');
client.set(note, 'fill', Colour.of('#b4405f'));
await link.settled();                       // the server has them, and they are on its disk

process.once('SIGINT', async () => { console.error((await link.finish()) ? 'all sent' : `${link.unsent} edits were not sent`); });
for await (const { put, gone } of link.changes()) console.log(put.map(({ id, kind }) => `${id} ${kind}`).join(', '), gone.length ? `gone: ${gone}` : '');
