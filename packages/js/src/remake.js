// Edits as texts: the parts of a message, and an edit that is made again out of its text, for the same client or another one.
import { ClientError, readValue, valueText } from './client.js';

// The members of a JSON list's text, each as its text: numbers of 64 bits stay what they are.
export function members(list) {
  const found = [];
  let depth = 0, isInText = false, begin = 1;
  for (let at = 0; at < list.length; at += 1) {
    const c = list[at];
    if (isInText) { if (c === '\\') at += 1; else if (c === '"') isInText = false; continue; }
    if (c === '"') isInText = true;
    else if (c === '[') depth += 1;
    else if (c === ']') { depth -= 1; if (depth === 0 && at > begin) found.push(list.slice(begin, at)); }
    else if (c === ',' && depth === 1) { found.push(list.slice(begin, at)); begin = at + 1; }
  }
  return found;
}

// The change of the text of a client's edit message.
export const changeOf = (message) => members(message)[3];

const nameOf = (text) => JSON.parse(text).join(':');

// Whether the document that the client shows has what the change did: then the change was judged, or isn't missed.
export function isShown(client, change) {
  const [word, id, ...rest] = members(change), what = JSON.parse(word), object = client.object(nameOf(id));
  if (what === 'delete') return !object;
  if (what === 'clear') return object?.properties[JSON.parse(rest[0])] === undefined;
  if (!object) return false;
  if (what === 'create') return object.kind === JSON.parse(rest[0]);
  if (what === 'move') { const [parent, position] = members(rest[0]); return object.parent === nameOf(parent) && object.position === JSON.parse(position); }
  const value = object.properties[JSON.parse(rest[0])];
  return value !== undefined && valueText(value) === valueText(readValue(rest[1]));
}

// Makes the change again: in a client that has another id under the ids that `ids` gives for those of objects made again. Answers null, or
// the code for which it can't be made.
export function remake(client, change, ids = new Map()) {
  const [word, id, ...rest] = members(change), what = JSON.parse(word), at = nameOf(id), now = (name) => ids.get(name) ?? name;
  try {
    if (what === 'create') {
      const [parent, position] = members(rest[1]), kind = JSON.parse(rest[0]), under = now(nameOf(parent)), wanted = JSON.parse(position);
      let made;
      try { made = client.createAt(kind, under, wanted); } catch (fault) {
        if (!(fault instanceof ClientError) || fault.code !== 'Taken') throw fault;
        made = client.createLast(kind, under);
      }
      ids.set(at, made);
    } else if (what === 'set') client.setJson(now(at), JSON.parse(rest[0]), rest[1]);
    else if (what === 'clear') client.clear(now(at), JSON.parse(rest[0]));
    else if (what === 'delete') client.delete(now(at));
    else {
      const [parent, position] = members(rest[0]), under = now(nameOf(parent)), wanted = JSON.parse(position);
      try { client.moveAt(now(at), under, wanted); } catch (fault) {
        if (!(fault instanceof ClientError) || fault.code !== 'Taken') throw fault;
        client.moveLast(now(at), under);
      }
    }
    return null;
  } catch (fault) {
    if (!(fault instanceof ClientError)) throw fault;
    return fault.code;
  }
}
