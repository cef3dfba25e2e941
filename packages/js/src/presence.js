// What the clients of a document show of themselves while they are connected: cursors, names, what is chosen. Nothing of it is kept. When it is sent
// and what is heard stands in flow.js.
const MOST_BYTES = 1024, DEEPEST = 100;
const encoder = new TextEncoder();

export class Presence {
  #show; #tell; #known = new Map(); #others = null;

  // `show` sends the JSON of a value, `tell` is called with each change of what the others show.
  constructor(show, tell) {
    this.#show = show;
    this.#tell = tell;
  }

  // What the others show, by their ids: a Map that stays as it is.
  get others() { return this.#others ??= new Map(this.#known); }

  set(value) { this.#show(jsonOf(value)); }

  // A client shows this now, or nothing any more if it is null.
  heard(client, value) {
    if (value === null ? !this.#known.delete(client) : !this.#known.set(client, value)) return;
    this.#others = null;
    this.#tell({ client, value });
  }

  // The connection is lost, and nobody is known to be there.
  lost() {
    const gone = [...this.#known.keys()];
    this.#known.clear();
    this.#others = null;
    for (const client of gone) this.#tell({ client, value: null });
  }
}

// The JSON of a value, if a server takes it.
function jsonOf(value) {
  const json = JSON.stringify(value, (name, it) => {
    if (typeof it === 'number' && !Number.isFinite(it)) throw new TypeError(`cannot show ${it}: it is no number of JSON`);
    return it;
  });
  if (json === undefined) throw new TypeError(`cannot show a value of the type ${typeof value}: it is no JSON`);
  if (/[^\\](?:\\\\)*\\ud/.test(json)) throw new TypeError('cannot show the value: it has half a surrogate pair, which is no text of JSON');
  const { length } = encoder.encode(json);
  if (length > MOST_BYTES) throw new RangeError(`cannot show the value: its JSON has ${length} bytes, and at most ${MOST_BYTES} are allowed`);
  if (depthOf(json) > DEEPEST) throw new RangeError(`cannot show the value: it is nested deeper than ${DEEPEST}`);
  return json;
}

function depthOf(json) {
  let depth = 0, deepest = 0;
  for (const [mark] of json.replace(/"(?:[^"\\]|\\.)*"/g, '').matchAll(/[[{\]}]/g)) {
    depth += '[{'.includes(mark) ? 1 : -1;
    deepest = Math.max(deepest, depth);
  }
  return deepest;
}
