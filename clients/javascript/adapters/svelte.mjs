// Gives what a board, a view or a place shows, as a Svelte store: a component reads it as `$cards`,
// and writes a place by `$title = "..."`.

/**
 * @param {any} source A board or a view, of which it holds the slots; or a place, of which it holds
 * the value.
 */
export function relayStore(source) {
  const shown = () => ("value" in source ? source.value : source.slots);
  return {
    /** @param {(shown: any) => void} run Told at once, and with each change. Gives its end. */
    subscribe(run) {
      run(shown());
      return source.subscribe(() => run(shown()));
    },
    /** @param {any} value */
    set: (value) => source.set(value),
    /** @param {(value: any) => any} change */
    update: (change) => source.update(change),
  };
}
