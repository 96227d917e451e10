// Gives what a board shows, as state of React components (18 and later), and what they do to it.
// Each takes null in place of a board, as there is none on a server and before the first drawing.
//
//     const board = useBoard(() => connect(url, { view: ["/cards"] }));
//     const count = useSlot(board, "/cards", (cards) => cards?.length ?? 0);
//     const [change, failed] = useChange(board);
import { useCallback, useEffect, useMemo, useRef, useState, useSyncExternalStore } from "react";
import { presence } from "../src/presence.mjs";

export { useRelay } from "./react.mjs";

const NOTHING = () => {};
const ITSELF = (value) => value;

/**
 * A board for as long as the component is there; null while it is drawn first, and on a server.
 * @param {() => any} make as `connect`
 * @param {readonly unknown[]} [keys] another board is made where one of them is another value
 */
export function useBoard(make, keys = []) {
  const [board, setBoard] = useState(null);
  useEffect(() => {
    const made = make();
    setBoard(made);
    return () => {
      made.close();
      setBoard(null);
    };
  }, keys);
  return board;
}

/**
 * Returns what is selected of the value at a pointer. The component is drawn again when that is
 * another.
 * @param {any} board
 * @param {any} pointer
 * @param {(value: any) => any} [select]
 * @param {(one: any, other: any) => boolean} [isEqual]
 */
export function useSlot(board, pointer, select = ITSELF, isEqual = Object.is) {
  const key = JSON.stringify(pointer);
  const place = useMemo(() => board?.at(JSON.parse(key)) ?? null, [board, key]);
  return useSelected(place, place, () => place?.value, select, isEqual);
}

/**
 * Returns what makes changes, and why the last of them failed, until the next one.
 * @param {any} board
 */
export function useChange(board) {
  const [failed, setFailed] = useState(null);
  const change = useCallback(
    (make, options) => {
      if (board === null) return Promise.reject(new Error("there is no board yet"));
      setFailed(null);
      const done = board.change(make, options);
      // Who looks at the promise hears of it there as well.
      done.catch(setFailed);
      return done;
    },
    [board],
  );
  return [change, failed];
}

/**
 * The state of the connection, and how many edits wait.
 * @param {any} board
 */
export function useConnection(board) {
  const source = useMemo(() => ({ subscribe: (listener) => both(board, listener) }), [board]);
  const shown = () => `${board?.state ?? "connecting"} ${board?.pending ?? 0}`;
  return useSelected(source, board, shown, connection, Object.is);
}

/** @param {any} board @param {() => void} listener */
function both(board, listener) {
  const ends = [board?.states(listener), board?.subscribe(listener)];
  return () => ends.forEach((end) => end?.());
}

/** @param {string} shown */
function connection(shown) {
  const [state, pending] = shown.split(" ");
  return { state, pending: Number(pending) };
}

const NOBODY = Object.freeze({});

/**
 * Keeps an entry of this client in an object of the document, for as long as the component is
 * there, and gives the entries of all who are here, by their ids.
 * @param {any} board
 * @param {string} pointer
 * @param {object} entry
 */
export function usePresence(board, pointer, entry) {
  const [here, setHere] = useState(null);
  const text = JSON.stringify(entry);
  const newest = useRef(text);
  newest.current = text;
  useEffect(() => {
    if (board === null) return undefined;
    const made = presence(board, pointer, JSON.parse(newest.current));
    setHere(made);
    return () => {
      setHere(null);
      made.leave();
    };
  }, [board, pointer]);
  useEffect(() => void here?.set(JSON.parse(text)).catch(NOTHING), [here, text]);
  return useSelected(here, here, () => here?.people ?? NOBODY, ITSELF, Object.is);
}

/**
 * Returns what is selected of a value that changes. A selection is kept as long as the value and
 * the function are the same, so that it may be another object each time that it is made.
 * @param {any} source with `subscribe`, or null
 * @param {unknown} of
 * @param {() => any} shown
 * @param {(value: any) => any} select
 * @param {(one: any, other: any) => boolean} isEqual
 */
function useSelected(source, of, shown, select, isEqual) {
  const kept = useRef(null);
  const subscribe = useCallback((listener) => source?.subscribe(listener) ?? NOTHING, [source]);
  const selected = () => {
    const value = shown();
    const before = kept.current;
    const isKept = before !== null && before.of === of;
    if (isKept && before.value === value && before.select === select) return before.selected;
    const made = select(value);
    const next = isKept && isEqual(before.selected, made) ? before.selected : made;
    kept.current = { of, value, select, selected: next };
    return next;
  };
  return useSyncExternalStore(subscribe, selected, selected);
}
