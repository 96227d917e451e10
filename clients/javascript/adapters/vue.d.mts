import type { Board, Frozen, Place, Shown, SlotsOf, SharedBoard } from "../relay.mjs";

/** The value that a place shows. */
export function useRelay<T>(place: Place<T>): { readonly value: Frozen<T> | undefined };
/** The slots that a board or a view shows; null before the first slots. */
export function useRelay<D, V extends readonly Shown[]>(
  source: Board<D, V> | SharedBoard<D, V>,
): { readonly value: SlotsOf<D, V> | null };
