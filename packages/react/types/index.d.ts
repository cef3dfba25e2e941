import type { CanvasObject, Client, Link, LinkState, ObjectId } from 'lugcurrant';
import type { FunctionComponent, ReactNode } from 'react';

/** Gives a link to the components below it. It neither makes the link nor closes it. */
export declare const DocumentProvider: FunctionComponent<{ link: Link; children?: ReactNode }>;

/** Returns the link of the provider. It causes no render. Throws if there is no provider. */
export declare function useLink(): Link;

/** Returns the client of the link, to edit the document. It causes no render. */
export declare function useClient(): Client;

/** Returns the objects of the document by their ids, as a Map that stays as it is. The component renders again after each change of the document. */
export declare function useDocument(): ReadonlyMap<ObjectId, CanvasObject>;

/**
 * Returns the object of this id, or null while it isn't in the tree. The component renders again if this object changes: its properties, its place, or
 * which children it has.
 */
export declare function useObject(id: ObjectId | null | undefined): CanvasObject | null;

/**
 * Returns the ids of an object's children in their order: without an id, those of the document's pages; none if the id is null or isn't in the tree.
 * The component renders again if these change.
 */
export declare function useChildren(id?: ObjectId | null): readonly ObjectId[];

/**
 * Returns what the other clients show of themselves, by their ids, as a Map that stays as it is. The component renders again if that changes. The own
 * value is set by `useLink().presence.set`.
 */
export declare function usePresence(): ReadonlyMap<number, unknown>;

/** What `useConnection` returns. */
export interface Connection {
  /** The state of the link. */
  readonly state: LinkState;
  /** Why, in words; empty while all is well. */
  readonly words: string;
  /** The number of edits that the server hasn't acknowledged. */
  readonly unsent: number;
  /** Whether the program wants no connection. */
  readonly offline: boolean;
}

/** Returns how the connection is. The component renders again if that changes. */
export declare function useConnection(): Connection;
