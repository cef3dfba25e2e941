// Written by packages/generate out of api.json: change that.
/** The version of the package. */
export declare const VERSION: string;
/** The kinds of objects that are created. */
export type Kind =
  | 'page'
  | 'frame'
  | 'shape'
  | 'text';
/** Why a call did nothing. */
export type FaultCode =
  | 'NotOpen'
  | 'NotShown'
  | 'ParentNotShown'
  | 'BadParent'
  | 'OwnDescendant'
  | 'Crowded'
  | 'IsRoot'
  | 'IdsSpent'
  | 'Full'
  | 'Memory'
  | 'TooDeep'
  | 'Taken'
  | 'NoClient'
  | 'Held'
  | 'NoRoom'
  | 'NoKind'
  | 'NameEmpty'
  | 'NameTooLong'
  | 'NameBadByte'
  | 'PositionEmpty'
  | 'PositionTooLong'
  | 'PositionBadByte'
  | 'PositionTrailingZero'
  | 'NotJson'
  | 'NotAValue'
  | 'NotAMessage'
  | 'OutOfRange'
  | 'ValueTooDeep'
  | 'NotAClient'
  | 'Inconsistent'
  | 'NotAnEdit'
  | 'NotOwn'
  | 'Gap'
  | 'Unknown';
/** What a client did with a message, or which end of an answer it was. */
export type HeardWhat =
  | 'took'
  | 'old'
  | 'ahead'
  | 'not for me'
  | 'idle'
  | 'no';
/** Where a link stands. */
export type LinkState =
  | 'connecting'
  | 'online'
  | 'offline'
  | 'no server'
  | 'no seat'
  | 'replaced'
  | 'stranger'
  | 'too large'
  | 'unreadable'
  | 'full'
  | 'disk failed'
  | 'disk failed before'
  | 'no memory'
  | 'another document'
  | 'unguarded'
  | 'fault'
  | 'closed';
/** Why the server refused an edit. */
export type RefusalName =
  | 'IsRoot'
  | 'BadId'
  | 'Gone'
  | 'ParentGone'
  | 'BadParent'
  | 'Cycle'
  | 'Crowded'
  | 'TooDeep'
  | 'Unknown';
/** The number of each kind. */
export declare const KINDS: Readonly<Record<Kind, number>>;
/** The numbers of the library by their names in C, without `LUGCURRANT_`. */
export declare const NUMBERS: Readonly<Record<string, number>>;
/** By its number why a call did nothing: a code, and a sentence. */
export declare const FAULTS: Readonly<Record<number, readonly [string, string]>>;
/** By its number the reason of a No: a name, and a sentence. */
export declare const NO_REASONS: Readonly<Record<number, readonly [string, string]>>;
/** By its number why the server refused an edit: a name, and a sentence. */
export declare const REFUSALS: Readonly<Record<number, readonly [string, string]>>;
/** By its number what `receive` returns, but for a No. */
export declare const HEARD: Readonly<Record<number, string>>;
/** By its name what a state of a link is, in words. */
export declare const STATES: Readonly<Record<LinkState, string>>;
/** The states after which a link has ended. */
export declare const FINAL_STATES: readonly LinkState[];
