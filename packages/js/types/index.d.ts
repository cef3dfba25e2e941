import type { FaultCode, HeardWhat, Kind, LinkState, RefusalName } from './api.js';
export * from './api.js';

/** The id of the document itself, `0:0`. */
export declare const ROOT: ObjectId;
/** `client:counter` */
export type ObjectId = string;
/** A number of 64 bits: a BigInt where it doesn't fit a number. */
export type Whole = number | bigint;
/** What a property holds: a whole number, a truth value, a text, a colour, or a list of values. */
export type Value = Whole | boolean | string | Colour | Value[];

/** A colour, 8 bits each for red, green, blue and how opaque it is. */
export declare class Colour {
  /** Makes a colour of 32 bits: red, green, blue and opacity, from the highest byte on. Throws a RangeError for another number. */
  constructor(rgba: number);
  /** `#rrggbb` or `#rrggbbaa`. */
  static of(hex: string): Colour;
  /** The 32 bits. */
  readonly rgba: number;
  /** Returns `#rrggbbaa`. */
  toString(): string;
}

/** Why a call did nothing. After each the client is as it was. */
export declare class ClientError extends Error {
  /** The name of the reason, as in all languages. */
  readonly code: FaultCode;
  /** Its number, as in C. */
  readonly number: number;
}

/** An object of the tree, as it was when it was read. It never changes: an object that changes is another one. */
export interface CanvasObject {
  /** Its id. */
  readonly id: ObjectId;
  /** Its kind; `document` of the root alone. */
  readonly kind: Kind | 'document';
  /** null for the document. */
  readonly parent: ObjectId | null;
  /** The position among the children of its parent, by whose bytes they are ordered; null for the document. */
  readonly position: string | null;
  /** Its properties by their names. */
  readonly properties: Readonly<Record<string, Value>>;
  /** In their order. */
  readonly children: readonly ObjectId[];
}

/** What a client did with a message, or which end of an answer it was; `reason` is the number of a No. */
export type Heard = { what: Exclude<HeardWhat, 'no'> } | { what: 'no'; reason: number };
/** The module: compiled, as its bytes, or as the answer to a request for it. */
export type ModuleSource = WebAssembly.Module | BufferSource | Response | Promise<WebAssembly.Module | BufferSource | Response>;

/** The compiled module, out of its bytes or the answer to a request for it. */
export declare function compile(source: ModuleSource): Promise<WebAssembly.Module>;
/** The JSON of a value. */
export declare function valueText(value: Value): string;
/** The value of which this is the JSON. */
export declare function readValue(json: string): Value;

/** A client: what it shows, and its edits that wait. Each call either does what it says or throws a ClientError and changes nothing. */
export declare class Client {
  /** A client without an id, or the one that was saved as these bytes. Without a source the module of the package is taken. */
  static load(source?: ModuleSource | null, saved?: Uint8Array | string | null): Promise<Client>;
  /** Returns the module that `load` takes if it is given none. The entries for node and for browsers set it. */
  static defaultModule: (() => ModuleSource) | null;
  /** Makes a client over the exports of an instance of the module, as `load` does. */
  constructor(exports: WebAssembly.Exports, saved?: Uint8Array | string | null);
  /** Ends the client, with all that waits. */
  free(): void;
  /**
   * The client as bytes: to be kept before an edit is sent, and loaded for the same document alone. In its place a line may be kept for each edit made
   * and each message taken since the last save, to be played by `resume` and `receive`. `Kept` does so by itself.
   */
  save(): Uint8Array;
  /** Its id, or null while it has none. */
  readonly id: number | null;
  /** The version that it has reached. */
  readonly version: Whole;
  /** The number of its last edit of which it has the entry. */
  readonly acknowledged: Whole;
  /** How many of its edits wait. */
  readonly waiting: Whole;
  /** The number of its last edit. */
  readonly lastEdit: Whole;
  /** The number of the last edit that stands in a save: another program that loads it sends the same edits up to this one. */
  readonly savedTo: Whole;
  /** The bytes of memory that the module has. */
  readonly memory: number;
  /** Those that are in use. */
  readonly memoryInUse: number;
  /** Receives a message of the server, and tells what came of it. */
  receive(message: Uint8Array | string): Heard;
  /**
   * Makes an edit of this client's again by its message, as `editMessage` gave it. False if the client had made one of this number already. Throws a
   * ClientError (`NotAnEdit`, `NotOwn`, `Gap`, `Inconsistent`, or why it is no message) if it can't be the next edit; nothing has changed then.
   */
  resume(message: Uint8Array | string): boolean;
  /** Creates an object in the parent, behind its child `after` or as the first, and answers its id. */
  create(kind: Kind, parent: ObjectId, after?: ObjectId | null): ObjectId;
  /** Behind all children of the parent: there is room for 41 million. */
  createLast(kind: Kind, parent: ObjectId): ObjectId;
  /** Before all children of the parent. */
  createFirst(kind: Kind, parent: ObjectId): ObjectId;
  /** At a position that no other child of the parent has. */
  createAt(kind: Kind, parent: ObjectId, position: string): ObjectId;
  /** Gives a property a value. */
  set(id: ObjectId, name: string, value: Value): void;
  /** The same with the JSON of the value. */
  setJson(id: ObjectId, name: string | Uint8Array, json: string | Uint8Array): void;
  /** Takes a property away. */
  clear(id: ObjectId, name: string): void;
  /** Moves the object into the parent, behind its child `after` or as the first. */
  move(id: ObjectId, parent: ObjectId, after?: ObjectId | null): void;
  /** Moves the object behind all other children of the parent. */
  moveLast(id: ObjectId, parent: ObjectId): void;
  /** Moves the object before all other children of the parent. */
  moveFirst(id: ObjectId, parent: ObjectId): void;
  /** Moves the object to a position that no other child of the parent has. */
  moveAt(id: ObjectId, parent: ObjectId, position: string): void;
  /** Removes the object; what lies below it is shown no more. */
  delete(id: ObjectId): void;
  /** What is sent to get an id. */
  joinMessage(): Uint8Array;
  /** What is sent to hear what is new; null while there is no id. */
  askMessage(): Uint8Array | null;
  /** The i-th edit that waits, counted from 1; null where so many don't. */
  editMessage(i: Whole): Uint8Array | null;
  /** Gives the messages of all edits that wait, in order. */
  messages(): Generator<Uint8Array>;
  /** The tree as text, as `lugcurrant show` prints it. */
  text(): string;
  /** Whether parents lead from the object to the document's root. */
  isInTree(id: ObjectId): boolean;
  /** Whether the object is in the view, in the tree or not. */
  isInView(id: ObjectId): boolean;
  /** Returns the objects of the tree by their ids, as a Map that is kept up to date. It reads what has changed since the last call. */
  objects(): ReadonlyMap<ObjectId, CanvasObject>;
  /** Returns an object of the tree, or null. */
  object(id: ObjectId): CanvasObject | null;
  /** Returns the ids of an object's children, in order; none if it isn't in the tree. */
  children(id: ObjectId): readonly ObjectId[];
  /** Returns the document itself, from whose children the tree goes on. */
  tree(): CanvasObject;
  /** What has become other since the last call: objects that are new or changed, each before its children, and ids that are gone. */
  changed(): Changes;
  /** A client in the same module's memory: one without an id, or the one that was saved as these bytes. */
  sibling(saved?: Uint8Array | string | null): Client;
  /**
   * This client with its first edit that waits replaced by one that changes nothing, under its number. `heard` has no edits and shows the document by
   * which all edits before that one are judged, and none since.
   */
  emptied(heard: Client): Client;
  /** Ends a client that nobody will call again, with its buffers. */
  discard(): void;
  /** Becomes another client of the same module, which is none any more then. */
  become(other: Client): void;
  /** Calls `told` after each edit, each message that was taken, and each `become`. Answers a function that ends it. */
  watch(told: (what: 'edit' | 'took' | 'anew', bytes: Uint8Array | string | null) => void): () => void;
  /** What a program listens to: the document, one object, or the children of one. */
  readonly signals: Signals;
}

/** The event `changed` of a signal. */
export interface ChangedEvent<Detail> extends Event {
  /** The name of the event. */
  readonly type: 'changed';
  /** The new value; of the whole document, what has changed. */
  readonly detail: Detail;
}

type Listener<E> = ((event: E) => void) | { handleEvent(event: E): void };

/**
 * A part of the document to listen to. An event `changed` comes once the program has made all its edits of a turn, or a message of the server was
 * taken; but at once after a property was set or cleared of an object whose signal has a listener.
 */
export declare class Signal<Value, Detail = Value> extends EventTarget {
  private constructor();
  /** The value that the client shows now: the same one as before if it hasn't changed. */
  readonly value: Value;
  /** Calls `act` with the detail of each event, and returns a function that ends it. It needs no `this`. */
  readonly subscribe: (act: (detail: Detail) => void) => () => void;
  /** Adds a listener: for `changed`, one of the part's changes. */
  addEventListener(type: 'changed', act: Listener<ChangedEvent<Detail>> | null, options?: boolean | AddEventListenerOptions): void;
  addEventListener(type: string, act: EventListenerOrEventListenerObject | null, options?: boolean | AddEventListenerOptions): void;
  /** Removes it. */
  removeEventListener(type: 'changed', act: Listener<ChangedEvent<Detail>> | null, options?: boolean | EventListenerOptions): void;
  removeEventListener(type: string, act: EventListenerOrEventListenerObject | null, options?: boolean | EventListenerOptions): void;
}

/** The signals of a client: `client.signals`. */
export declare class Signals {
  private constructor();
  /** The whole document: its objects by their ids, as a Map that stays as it is. An event has what `changed()` of the client returns. */
  readonly document: Signal<ReadonlyMap<ObjectId, CanvasObject>, Changes>;
  /** An object of the tree, with its properties and its children's ids; null while it isn't in the tree. */
  object(id: ObjectId): Signal<CanvasObject | null>;
  /** The ids of an object's children, in their order; none if it isn't in the tree. */
  children(id: ObjectId): Signal<readonly ObjectId[]>;
  /** How many signals have a listener. */
  readonly size: number;
}

/** What has changed in the tree. */
export interface Changes {
  /** Objects that are new or differ, each before its children. */
  put: CanvasObject[];
  /** The ids of objects that are in the tree no more. */
  gone: ObjectId[];
}
/** An edit that the server refused, or can't take. */
export interface Refusal {
  /** The version of the entry that says so, or the client's. */
  version: Whole;
  /** The number of the edit. */
  number: Whole;
  /** `create`, `set`, `clear`, `move` or `delete`. */
  edit: string;
  /** The object of the edit. */
  id: ObjectId;
  /** The name of the reason. */
  name: RefusalName | 'too large' | 'unreadable';
  /** The reason in words. */
  words: string;
  /** The edit as its JSON (docs/wire.md), if it is too large for the server or can't be read. Its number stands for one that changes nothing then. */
  change?: string;
}
/** An edit that couldn't be made again, as its JSON (docs/wire.md), and why. */
export interface LostEdit { change: string; code: string }
/**
 * An edit that wasn't made again, as it may have been judged: another program used the id, and a checkpoint has hidden whose edit was. The document
 * doesn't show what it did.
 */
export interface UnsureEdit { change: string }
/** What became of the edits that waited when the client became another one. */
export interface Anew {
  /** How many were made again, and wait now. */
  made: number;
  /** Those that couldn't be made. */
  lost: LostEdit[];
  /** Those that may have been judged. */
  unsure: UnsureEdit[];
  /** The new ids of objects that were created again, by their former ones. */
  ids: ReadonlyMap<ObjectId, ObjectId>;
}

/** What another client shows of itself now. */
export interface PresenceChange {
  /** Its id. */
  client: number;
  /** What it shows: JSON of any form, as another program made it. Null if it shows nothing any more, or is not known to be connected. */
  value: unknown;
}

/** What the clients of a document show of themselves while they are connected, as cursors and names: `link.presence`. Nothing of it is kept. */
export declare class Presence {
  private constructor();
  /** What the others show, by the ids of their clients, as a Map that stays as it is. It is empty without a connection, and with an older server. */
  readonly others: ReadonlyMap<number, unknown>;
  /**
   * Shows the others this value, JSON of at most 1,024 bytes, in place of the last one; null for nothing. It is sent once the link has caught up, at most
   * 30 times a second, the last one always, and again on each later connection. Throws a TypeError if the value is no JSON, and a RangeError if it is too
   * large, or lists and objects in it are more than 100 deep.
   */
  set(value: unknown): void;
}

/** The events of a link, and what each has in `detail`. */
export interface LinkEvents {
  /** The state or its words are others. */
  state: Link;
  /** The document may have changed: true after own edits, false after a message of the server. */
  change: boolean;
  /** The server refused an own edit. */
  refused: Refusal;
  /** The client has become another one, and its edits were made again. */
  anew: Anew;
  /** Nothing waits any more, and what there is was heard. */
  settled: Link;
  /** The number of edits that the server hasn't acknowledged is another one. */
  unsent: number;
  /** Another client shows something else, or nothing any more. */
  presence: PresenceChange;
}

/** An event of a link. */
export interface LinkEvent<Detail> extends Event {
  /** What belongs to the event. */
  readonly detail: Detail;
}

/** How much a link sends before it has answers. */
export interface FlowOptions {
  /** Edits under way at once, and their bytes. */
  window?: number;
  /** Bytes of edits under way at once; a single edit may be longer. */
  windowBytes?: number;
  /** Asks under way at once while few news come, and while catching up. */
  asks?: number;
  /** Asks under way at once while catching up. */
  mostAsks?: number;
  /** Milliseconds between two asks. */
  leastPause?: number;
  /** Milliseconds to which the pause between asks grows while nothing comes. */
  mostPause?: number;
  /** Milliseconds without a message after which a live connection is tried by an ask. */
  beat?: number;
}

/** What a link is made with. Functions are called as listeners of the events are. */
export interface LinkOptions extends FlowOptions {
  /** The identity of the document, where it was kept; false for a server that answers clients alone, as `canvasd` does. */
  document?: string | false;
  /** Begin anew where the server has another document, in place of ending. */
  follow?: boolean;
  /** Keeps the client before an edit is sent. */
  kept?: Kept;
  /** The class for connections, in place of the one that is found. */
  WebSocket?: unknown;
  /** Milliseconds before the first try of another connection, of which each later one waits twice as long, and the longest wait. */
  retry?: number;
  /** The longest wait before another try, in milliseconds. */
  mostRetry?: number;
  /** Milliseconds without a message, while one is awaited, after which the connection is given up. */
  patience?: number;
  /** Called if the state or its words are others. */
  state?(link: Link): void;
  /** `own` where it was an edit of this program. */
  changed?(own: boolean): void;
  /** Called for each edit that the server refused. */
  refused?(refusal: Refusal): void;
  /** Called after the client has become another one. */
  anew?(anew: Anew): void;
  /** Called if another client shows something else. */
  presence?(change: PresenceChange): void;
}

/** A client's connection to a server, made again where it is lost. */
export declare class Link extends EventTarget {
  /** Returns the class for connections if none is given. The entries for node and for browsers set it. */
  static findWebSocket: () => Promise<unknown>;
  /** Makes a link and begins to connect. `url` is the server's, a path of a proxy included. */
  constructor(client: Client, url: string | URL, options?: LinkOptions);
  /** The client that the link sends and hears for. */
  readonly client: Client;
  /** The server's URL, with a slash at the end of its path. */
  readonly url: URL;
  /** The state of the connection. */
  readonly state: LinkState;
  /** Why, in words; empty while all is well. */
  readonly words: string;
  /** The identity of the document, once it is known. */
  readonly document: string | null;
  /** What this client shows the others, and they show. */
  readonly presence: Presence;
  /** When the client has an id, and has heard what there is. */
  readonly ready: Promise<Link>;
  /** When the link has ended. */
  readonly done: Promise<void>;
  /** How many edits the server hasn't said to have. */
  readonly unsent: number;
  /** Whether edits would be lost if the program ended now. */
  readonly isLosing: boolean;
  /** Whether the program wants no connection. Set it to close and to open the connection; edits wait until then. */
  offline: boolean;
  /** Calls `act` with the detail of each event of this name, and returns a function that ends it. */
  on<K extends keyof LinkEvents>(name: K, act: (detail: LinkEvents[K]) => void): () => void;
  /** Adds a listener, whose event has the detail that `on` gives. */
  addEventListener<K extends keyof LinkEvents>(name: K, act: Listener<LinkEvent<LinkEvents[K]>> | null, options?: boolean | AddEventListenerOptions): void;
  addEventListener(name: string, act: EventListenerOrEventListenerObject | null, options?: boolean | AddEventListenerOptions): void;
  /** Removes it. */
  removeEventListener<K extends keyof LinkEvents>(name: K, act: Listener<LinkEvent<LinkEvents[K]>> | null, options?: boolean | EventListenerOptions): void;
  removeEventListener(name: string, act: EventListenerOrEventListenerObject | null, options?: boolean | EventListenerOptions): void;
  /** The changes of the tree, until the link is closed. */
  changes(): AsyncGenerator<Changes>;
  /** When nothing waits, and what there is was heard. */
  settled(): Promise<void>;
  /** Asks at once, whatever the pause is. After edits it needn't be called. */
  wake(): void;
  /** Ends the link. What waits in the client stays there. */
  close(): void;
  /** Closes it when the server has all edits, or after so many milliseconds; whether it has them. */
  finish(milliseconds?: number): Promise<boolean>;
}

/** Lets the browser ask before the page is closed while `count()` edits would be lost. */
export declare function warnBeforeClosing(count: () => number, target?: EventTarget): () => void;

/** What keeps one client: in a file, or in the browser. */
export interface Shelf {
  /** Returns the whole client, or null, and what was added after it. */
  read(): Promise<{ all: Uint8Array | null; journal: Uint8Array[] }>;
  /** Keeps the whole client, in place of all that was kept. */
  put(all: Uint8Array): Promise<void>;
  /** Keeps more parts. They are on the disk once it resolves. */
  add(parts: Uint8Array[]): Promise<void>;
  /** Forgets what was kept, and lets the lock go. */
  end(): Promise<void>;
  /** Lets the lock go. */
  close(): Promise<void>;
}

/** What was kept doesn't come to the client that kept it: what was kept was changed, or belongs to another version of this package. */
export declare class ReplayError extends Error {
  /** Which of what was kept: 0 is the whole client, and what it did since is counted from 1. */
  readonly index: number;
  /** The edit or message that was kept, and the edit that it comes to, or null. */
  readonly kept: string;
  /** The edit that it comes to, or null. */
  readonly made: string | null;
  /** Why it can't be done again; null if it comes to another edit. */
  readonly code: string | null;
  /** This and what follows. */
  readonly left: { what: 'all' | 'edit' | 'took' | 'unknown'; message: string }[];
}

/** Keeps a client: all of it at times, and each edit and message since. */
export declare class Kept {
  /** Makes a keeper over a shelf. */
  constructor(shelf: Shelf);
  /** Why nothing is kept any more, or not all could be read. */
  readonly fault: Error | null;
  /** Whether it keeps: false after an error, `end` or `close`. */
  readonly isKeeping: boolean;
  /**
   * The client that was kept, or a new one. Throws a ReplayError if what was kept doesn't come to that client, and touches nothing of it then. With
   * `takePrefix` it goes on with what came before, `fault` is the error, and the next edit that is kept replaces what was kept.
   */
  load(module?: ModuleSource | null, options?: { takePrefix?: boolean }): Promise<Client>;
  /** Keeps this client from now on. `load` does so with the client that it returns. */
  watch(client: Client): void;
  /** Keeps what the client is by now. It never rejects: after an error nothing is kept any more, and `fault` has it. */
  flush(): Promise<void>;
  /** Forgets what was kept, and ends keeping. */
  end(): Promise<void>;
  /** Keeps what the client is by now, and lets the lock go. */
  close(): Promise<void>;
}

/** In browsers: a shelf for the document of this identity, of the window of this number or of the first that is closed. */
export declare function shelfOfBrowser(document: string | null, options?: { window?: number | null; wait?: number; database?: string }): Promise<(Shelf & { window: number }) | null>;
/** Takes the browser's lock of this name; null if another window has it for so long. Returns a function that lets it go. */
export declare function lockOfBrowser(name: string, milliseconds?: number): Promise<(() => void) | null>;
/** In node: a shelf in a file, with a lock beside it. */
export declare function shelfOfFile(path: string): Shelf;

/** What came of a message: `took`, `refused`, `state`, `anew`, `caught up` or `here`, and what belongs to it. */
export interface FlowEvent { type: string; [more: string]: unknown }
/** What a link says and hears, without sockets and clocks. */
export declare class Flow {
  /** Makes a flow for the client, without a connection. */
  constructor(client: Client, options?: FlowOptions);
  /** The number of edits that the server hasn't acknowledged. */
  readonly unsent: number;
  /** Whether nothing waits, and what there is was heard. */
  readonly isSettled: boolean;
  /** The number of the last edit that may be sent: a later one isn't kept yet. */
  limit: bigint;
  /** What has come of messages and isn't taken yet. The program takes events out of this list. */
  events: FlowEvent[];
  /** Notes that a connection is open. Times are in milliseconds, from any start. */
  open(now: number): void;
  /** Notes that the connection is lost. */
  lost(): void;
  /** Lets the next ask be sent at once. */
  wake(now: number): void;
  /** Shows the others this JSON on each live connection from now on. Events of the type `here` have what they show. */
  show(json: string): void;
  /** Returns the messages to send now, in order. They count as sent. */
  outgoing(now: number): Uint8Array[];
  /** Returns the milliseconds after which `outgoing` may have more, or null: then something must happen first. */
  due(now: number): number | null;
  /** Takes a message of the server. */
  hear(bytes: Uint8Array, now: number): void;
  /** Goes on as another client, with what waits made again. */
  beginAnew(state: LinkState, how?: { scan?: boolean; from?: bigint }): void;
}
/** Returns the change of the text of an edit's message. */
export declare function changeOf(message: string): string;
/** Returns the members of a JSON list, each as its text. */
export declare function members(list: string): string[];
/** Whether the document that the client shows has what the change did. */
export declare function isShown(client: Client, change: string): boolean;
/** Makes a change again, in a client for which `ids` has the new ids of objects. Returns null, or the code for which it can't be made. */
export declare function remake(client: Client, change: string, ids?: Map<ObjectId, ObjectId>): FaultCode | null;
