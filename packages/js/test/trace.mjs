// With --trace each call of a flow, and what it answers, is printed as a line of JSON, for python/tests/replay.py and c/tests/replay.py.
export const isTracing = process.argv.includes('--trace');
export const trace = (...line) => { if (isTracing) console.log(JSON.stringify(line)); };

const text = (bytes) => Buffer.from(bytes).toString();
const plainOf = (value) => {
  if (Array.isArray(value)) return value.map((it) => (it instanceof Uint8Array ? text(it) : it));
  return value instanceof Uint8Array ? text(value) : value;
};

// The events that a call has left, in a line after it. What others show is traced once a link's `presence` has heard it.
export function traceEvents(flow, n) {
  const events = isTracing ? flow.events.filter(({ type }) => type !== 'here') : [];
  if (events.length) trace('events', n, events.map((it) => (it.ids ? { ...it, ids: Object.fromEntries(it.ids) } : it)));
}

// A flow of which each call is traced.
export const tracedFlow = (flow, n) => !isTracing ? flow : new Proxy(flow, {
  set(at, key, value) { at[key] = value; return true; },
  get(at, key) {
    const it = Reflect.get(at, key, at);
    if (typeof it !== 'function') return it;
    return (...args) => { const answer = it.apply(at, args); trace(key, n, args.map(plainOf), plainOf(answer) ?? null); return answer; };
  },
});

// A client of which each edit is traced.
export const tracedClient = (client, n) => !isTracing ? client : new Proxy(client, {
  get(at, key) {
    const it = Reflect.get(at, key, at);
    if (typeof it !== 'function') return it;
    return (...args) => {
      if (!/^(create|set|clear|move|delete)/.test(key)) return it.apply(at, args);
      let answer;
      try { answer = it.apply(at, args); } catch (fault) { trace('refused', n, key, args, fault.code); throw fault; }
      trace('edit', n, key, args, answer ?? null);
      return answer;
    };
  },
});
