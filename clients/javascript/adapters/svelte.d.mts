import type { Board, Frozen, Place, Shown, SlotsOf, SharedBoard } from "../relay.mjs";

export interface Readable<T> {
  subscribe(run: (value: T) => void): () => void;
}

export interface Writable<T> extends Readable<Frozen<T> | undefined> {
  set(value: NonNullable<T | Frozen<T>>): Promise<number>;
  update(
    change: (value: Frozen<T> | undefined) => NonNullable<T | Frozen<T>>,
  ): Promise<number>;
}

/** The value that a place shows, as a store that can be written. */
export function relayStore<T>(place: Place<T>): Writable<T>;
/** The slots that a board or a view shows, as a store; null before the first slots. */
export function relayStore<D, V extends readonly Shown[]>(
  source: Board<D, V> | SharedBoard<D, V>,
): Readable<SlotsOf<D, V> | null>;
