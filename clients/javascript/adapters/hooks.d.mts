import type {
  Board,
  ChangeOptions,
  Draft,
  Frozen,
  Json,
  Presence,
  SharedBoard,
  Shown,
  State,
  ValueOf,
} from "../relay.mjs";

export { useRelay } from "./react.mjs";

type Source<D> = Board<D, any> | SharedBoard<D, any> | null;

/**
 * A board for as long as the component is there; null while it is drawn first, and on a server.
 * Another one is made where one of the keys is another value.
 */
export function useBoard<B extends { close(): void }>(
  make: () => B,
  keys?: readonly unknown[],
): B | null;

/** The value that stands at a pointer; undefined where nothing does, and before the first slots. */
export function useSlot<D, P extends Shown>(
  board: Source<D>,
  pointer: P,
): Frozen<ValueOf<D, P>> | undefined;
/**
 * Returns what is selected of it. The component is drawn again when that is another one: by
 * `Object.is`, or by a function that says whether two are equal.
 */
export function useSlot<D, P extends Shown, S>(
  board: Source<D>,
  pointer: P,
  select: (value: Frozen<ValueOf<D, P>> | undefined) => S,
  isEqual?: (one: S, other: S) => boolean,
): S;

/** Returns what makes changes, and why the last of them failed, until the next one. */
export function useChange<D>(
  board: Source<D>,
): [
  change: (
    make: (draft: Json extends D ? any : Draft<D>) => void,
    options?: ChangeOptions,
  ) => Promise<number>,
  failed: Error | null,
];

/** The state of the connection, and how many edits wait. */
export function useConnection(
  board: Source<any>,
): { readonly state: State; readonly pending: number };

/**
 * Keeps an entry of this client in the object at a pointer of the board's view, for as long as the
 * component is there, and gives the entries of all who are here, by their ids.
 */
export function usePresence<E extends object>(
  board: Source<any>,
  pointer: string,
  entry: E,
): Presence<E>["people"];
