// Gives what a board, a view or a place shows, as a ref of Vue 3, which ends with the component
// that made it.
//
//     const title = useRelay(board.at("/title"));
import { onScopeDispose, shallowRef } from "vue";

/**
 * @param {any} source A board or a view, of which it holds the slots; or a place, of which it holds
 * the value.
 */
export function useRelay(source) {
  const shown = () => ("value" in source ? source.value : source.slots);
  const held = shallowRef(shown());
  onScopeDispose(source.subscribe(() => (held.value = shown())));
  return held;
}
