// An application of React with the hooks of the JavaScript client, in strict mode.
import { StrictMode, useState } from "react";
import { connect } from "@bolsteregret/relay";
import {
  useBoard,
  useChange,
  useConnection,
  usePresence,
  useSlot,
} from "@bolsteregret/relay/react";

/** How often each component was drawn. */
export const drawn = { count: 0, first: 0, long: 0 };
/** The boards that were made. */
export const boards = [];

function Count({ board }) {
  drawn.count += 1;
  return <b id="count">{useSlot(board, "/cards", (cards) => cards?.length ?? "none")}</b>;
}

function First({ board }) {
  drawn.first += 1;
  return <b id="first">{useSlot(board, "/cards/0") ?? "nothing"}</b>;
}

// What it selects is another list each time.
function Long({ board }) {
  drawn.long += 1;
  const long = useSlot(
    board,
    "/cards",
    (cards) => (cards ?? []).filter((card) => card.length > 4),
    same,
  );
  return <b id="long">{long.join()}</b>;
}

function same(one, other) {
  return one.length === other.length && one.every((part, k) => part === other[k]);
}

function Buttons({ board }) {
  const [change, failed] = useChange(board);
  const add = () => change((draft) => void draft.cards.push("eggs"));
  const fail = () => change((draft) => void draft.cards.push("x".repeat(300_000))).catch(() => {});
  return (
    <>
      <button id="add" onClick={add} />
      <button id="fail" onClick={fail} />
      <b id="failed">{failed?.fault ?? "well"}</b>
    </>
  );
}

function Here({ board, name }) {
  const people = usePresence(board, "/here", { name });
  return <b id="here">{Object.values(people).map(({ name }) => name).sort().join()}</b>;
}

function Connection({ board }) {
  const { state, pending } = useConnection(board);
  return <b id="connection">{`${state} ${pending}`}</b>;
}

function Page({ url }) {
  const [name, setName] = useState("Ann");
  const [isHere, setIsHere] = useState(true);
  const board = useBoard(() => {
    const board = connect(url, { view: ["/cards", "/here"], firstWait: 10, onState: () => {} });
    boards.push(board);
    return board;
  }, [url]);
  return (
    <>
      <Count board={board} />
      <First board={board} />
      <Long board={board} />
      <Buttons board={board} />
      <Connection board={board} />
      {isHere && <Here board={board} name={name} />}
      <button id="rename" onClick={() => setName("Bob")} />
      <button id="leave" onClick={() => setIsHere(false)} />
    </>
  );
}

export function App({ url }) {
  return <StrictMode><Page url={url} /></StrictMode>;
}
