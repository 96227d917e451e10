// Gives what a board, a view or a place shows, as state of a React component (18 and later): it is
// drawn again when that changes.
//
//     const [cards] = useRelay(board) ?? [[]];
//     const title = useRelay(board.at("/title"));
import { useCallback, useSyncExternalStore } from "react";

/**
 * @param {any} source A board or a view, of which it gives the slots; or a place, of which it gives
 * the value.
 */
export function useRelay(source) {
  const subscribe = useCallback((listener) => source.subscribe(listener), [source]);
  const shown = () => ("value" in source ? source.value : source.slots);
  return useSyncExternalStore(subscribe, shown, shown);
}
