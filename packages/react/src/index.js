// Hooks for React. Each subscribes to a signal or a link of the package lugcurrant, and returns what that shows now: the same object until it changes, so
// React renders a component again only if what it shows has changed.
import { createContext, createElement, useCallback, useContext, useMemo, useSyncExternalStore } from 'react';

const ROOT = '0:0';
const LinkContext = createContext(null);

export function DocumentProvider({ link, children }) { return createElement(LinkContext.Provider, { value: link }, children); }

export function useLink() {
  const link = useContext(LinkContext);
  if (!link) throw new Error('cannot use the document: no DocumentProvider is above this component; put one around it, with its `link`');
  return link;
}

export function useClient() { return useLink().client; }

export function useDocument() {
  const { signals } = useClient();
  return useSignal(useMemo(() => signals.document, [signals]));
}

export function useObject(id) {
  const { signals } = useClient();
  return useSignal(useMemo(() => signals.object(id), [signals, id]));
}

export function useChildren(id = ROOT) {
  const { signals } = useClient();
  return useSignal(useMemo(() => signals.children(id), [signals, id]));
}

export function useConnection() {
  const link = useLink(), connection = useMemo(() => new Connection(link), [link]);
  return useSyncExternalStore(connection.subscribe, connection.read, connection.read);
}

export function usePresence() {
  const link = useLink(), subscribe = useCallback((act) => link.on('presence', act), [link]), read = () => link.presence.others;
  return useSyncExternalStore(subscribe, read, read);
}

function useSignal(signal) {
  const read = () => signal.value;
  return useSyncExternalStore(signal.subscribe, read, read);
}

// What a link says of its connection, as one object that stays the same until something of it changes.
class Connection {
  #link; #known = null;

  constructor(link) { this.#link = link; }

  subscribe = (act) => {
    const ends = ['state', 'unsent'].map((name) => this.#link.on(name, act));
    return () => { for (const end of ends) end(); };
  };

  read = () => {
    const { state, words, unsent, offline } = this.#link, now = { state, words, unsent, offline };
    if (!this.#known || Object.keys(now).some((name) => now[name] !== this.#known[name])) this.#known = Object.freeze(now);
    return this.#known;
  };
}
