// A room, live: its document at each revision that this page saw, and what it says and hears.
"use strict";

const REVISIONS = 500; // that are kept
const LINES = 300;

const { url } = visit("board");
const at = (id) => document.getElementById(id);
const tree = new Tree(at("tree"));
const seen = []; // revisions with their documents, oldest first
let isLive = true;

at("room").textContent = withoutUser(url);

const board = relay.connect(url, {
  view: [""],
  WebSocket: relay.inspected(logged),
  onChange: keep,
  onState: (state, cause) => {
    at("state").dataset.state = state;
    at("state").textContent = cause ? `${state}: ${cause.message}` : state;
  },
});

function keep({ slots, rev, patch }) {
  if (seen.at(-1)?.epoch !== board.epoch) seen.length = 0;
  const changed = (patch ?? []).flatMap(places);
  seen.push({ rev, epoch: board.epoch, value: slots[0][0], changed });
  seen.splice(0, seen.length - REVISIONS);
  const slider = at("revisions");
  slider.max = seen.length - 1;
  if (isLive) slider.value = slider.max;
  draw(isLive);
}

/** The places at which an operation on the slot has changed the document. */
function places({ op, path, from }) {
  const inner = (place) => place.replace(/^\/0(\/0)?/, "");
  const holder = inner(path).replace(/\/[^/]*$/, "");
  if (op === "remove") return [holder];
  return op === "move" ? [inner(path), inner(from).replace(/\/[^/]*$/, "")] : [inner(path)];
}

function draw(isNew) {
  const shown = seen[Number(at("revisions").value)];
  if (shown === undefined) return;
  tree.show(shown.value, isNew ? shown.changed : []);
  at("revision").textContent = `revision ${shown.rev} of ${seen.at(-1).rev}`;
  at("live").setAttribute("aria-pressed", String(isLive));
}

function goLive(live) {
  isLive = live;
  if (live) at("revisions").value = at("revisions").max;
  draw(false);
}

at("revisions").oninput = ({ target }) => goLive(target.value === target.max);
at("live").onclick = () => goLive(!isLive);

// What is said and heard. A client that heard nothing for a while sends a request without a `do`:
// that the relay refuses it shows that it is there.

let asked = null; // the number of the last such request

function logged({ way, message }) {
  if (way === "sent" && message.do === undefined) asked = message.id;
  const line = document.createElement("li");
  line.className = `${way} ${isAsking(message) ? "asking" : (message.kind ?? "")}`;
  const details = document.createElement("details");
  details.append(part("summary", "", summary(message)));
  details.append(part("pre", "", JSON.stringify(message, null, 2)));
  line.append(details);
  at("log").prepend(line);
  while (at("log").children.length > LINES) at("log").lastChild.remove();
}

/** True of a request that only asks whether the relay is there, and of its answer. */
function isAsking({ id, kind }) {
  return id !== undefined && id === asked && (kind === undefined || kind === "refused");
}

function summary(message) {
  const { kind, id, rev, patch, fault, how, epoch } = message;
  const number = id === undefined || id === null ? "" : ` ${id}`;
  if (isAsking(message)) return `${kind ? "still there" : "are you there?"}${number}`;
  if (kind === "refused") {
    const place = message.at === null ? "" : ` at ${message.at}`;
    return `refused${number}: ${fault}${place} (${FAULTS[fault] ?? "see docs/PROTOCOL.md"})`;
  }
  const plural = patch?.length === 1 ? "" : "s";
  const operations = patch === undefined ? "" : `, ${patch.length} operation${plural}`;
  const base = message.base === undefined ? "" : ` at revision ${message.base} only`;
  const what = kind ?? message.do;
  const revision = rev === undefined ? "" : `, revision ${rev}`;
  const words = [how && `: ${how}`, revision, epoch && `, epoch ${epoch}`];
  return what + number + operations + base + words.filter(Boolean).join("");
}

at("edit").onsubmit = (event) => {
  event.preventDefault();
  at("problem").textContent = "";
  try {
    const patch = JSON.parse(at("patch").value);
    const lost = lostBy(patch);
    if (lost === null) edit(patch);
    else ask(lost, patch);
  } catch (error) {
    at("problem").textContent = error.message;
  }
};

function edit(patch) {
  board.edit(patch).catch((error) => (at("problem").textContent = error.message));
}

/** The document that a patch replaces or removes as a whole, or null if none is lost. */
function lostBy(patch) {
  const isWhole = (each) => object(each).path === "" && object(each).op !== "test";
  return list(patch).some(isWhole) ? (board.confirmed?.[0]?.[0] ?? null) : null;
}

function ask(lost, patch) {
  const size = shownValue(lost).textContent;
  at("lost").textContent = `This takes away the whole document (${size}), for everybody.`;
  at("replace").onclick = () => {
    at("sure").close();
    edit(patch);
  };
  at("sure").showModal();
}

at("leave").onclick = () => at("sure").close();
at("patch").addEventListener("keydown", (event) => {
  if (event.key !== "Enter" || !(event.ctrlKey || event.metaKey)) return;
  event.preventDefault(); // in Firefox this key would press a button of the dialog that it opens
  at("edit").requestSubmit();
});
