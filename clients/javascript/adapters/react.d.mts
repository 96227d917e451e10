import type { Board, Frozen, Place, Shown, SlotsOf, SharedBoard } from "../relay.mjs";

/** The value that a place shows, as state of a component: `useRelay(board.at("/title"))`. */
export function useRelay<T>(place: Place<T>): Frozen<T> | undefined;
/** The slots that a board or a view shows, as state of a component; null before the first slots. */
export function useRelay<D, V extends readonly Shown[]>(
  source: Board<D, V> | SharedBoard<D, V>,
): SlotsOf<D, V> | null;
