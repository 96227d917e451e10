// The board of board.html: three lists of cards in one document, each shown as a slot. What is done
// to a card shows at once; it tests first that the card is still the one that was seen, and flies
// back, with a word, where it is not. What is written is not lost then (texts.js). A card is put
// away into a fourth list, of which only the size is watched: the client cannot take that back by
// itself, so Undo has a step of the page's own.
"use strict";

const LISTS = [
  { name: "To do", path: "/todo" },
  { name: "Doing", path: "/doing" },
  { name: "Done", path: "/done" },
];
const AWAY = "/away";
const PATHS = [...LISTS.map(({ path }) => path), AWAY];
const HERE = "/here";
const ELSEWHERE = "The card that was put away is not where it was left.";

const { url, name } = visit("board");
const unsaved = new Unsaved(`board ${url}`);
const at = (selector) => document.querySelector(selector);

const lists = LISTS.map(column);
const cards = new Cards(lists, card);
let written = null; // the element of the card in which somebody types
let lookAgain = () => {}; // what is done when the cards around it were drawn
let endWriting = () => {}; // what ends it
let isDrawing = false;
const typed = new WeakSet(); // the inputs in which somebody typed what was not sent yet
const putAways = []; // the cards that Undo brings back, the last one first
let steps = Promise.resolve(); // the last Undo or Redo

const board = relay.connect(url, {
  view: [...LISTS.map(({ path }) => path), { size: AWAY }, HERE],
  begin: { ...Object.fromEntries(PATHS.map((path) => [path.slice(1), []])), here: {} },
  onChange: draw,
  onState: tell,
});
board.ready.then(resumeTexts, (cause) => say(failure(cause)));
const here = relay.presence(board, HERE, { name });
beforeLeaving(() => endWriting());
addEventListener("pagehide", () => here.leave());

// What is shown.

function draw({ slots, rev }) {
  findPutAways();
  showCards(slots);
  slots.slice(0, LISTS.length).forEach(([value], k) => {
    lists[k].parentElement.querySelector(".count").textContent = list(value).length;
  });
  at("#away").textContent = `${slots[LISTS.length][0] ?? 0} put away`;
  at("#people").replaceChildren(...Object.entries(here.people).map(person));
  document.title = `Board, revision ${rev}`;
  tell(board.state);
}

/** Draws all cards. The one in which somebody types keeps its input, and what is typed. */
function showCards(slots) {
  isDrawing = true;
  cards.show(LISTS.map((_, k) => list(slots[k][0])), written);
  isDrawing = false;
  lookAgain();
}

function tell(state, cause = null) {
  setText(at("#state"), connection(state, cause, board?.pending ? "saving" : "connected"));
  at("#state").title = at("#state").textContent; // its line may be too short for it
  at("#state").dataset.state = state;
  at("#undo").disabled = !board?.undoable && putAways.length === 0;
  at("#redo").disabled = !board?.redoable;
}

function person([id, { name }]) {
  const shown = document.createElement("li");
  shown.textContent = text(name).slice(0, 2);
  shown.title = id === here.id ? `${text(name)} (you)` : text(name);
  shown.classList.toggle("me", id === here.id);
  shown.style.setProperty(
    "--hue",
    [...text(name)].reduce((sum, sign) => (sum * 31 + sign.codePointAt(0)) % 360, 7),
  );
  return shown;
}

function takeBack(value, cause) {
  say(failure(cause));
  const element = cards.find(value);
  element?.classList.add("refused");
  setTimeout(() => element?.classList.remove("refused"), 1200);
}

// What is done. `seen` is a card as it was when it was looked at: its list, its place and its
// value, mostly a text.

function change({ list, place, value }, act) {
  const path = `${LISTS[list].path}/${place}`;
  const done = board.edit([{ op: "test", path, value }, act(path)], { optimistic: true });
  done.catch((cause) => takeBack(value, cause));
  return done;
}

function move(seen, list, place) {
  if (seen.list === list && seen.place === place) return;
  change(seen, (from) => ({ op: "move", from, path: `${LISTS[list].path}/${place}` }));
}

function putAway(seen) {
  const put = { ...seen };
  const found = (rev) => {
    put.rev = rev;
    findPutAways();
  };
  const failed = () => putAways.splice(putAways.indexOf(put), 1);
  putAways.push(put);
  change(seen, (from) => ({ op: "move", from, path: `${AWAY}/-` }))
    .then(found, failed)
    .then(() => tell(board.state));
}

/** Notes where cards were put, and how many edits can be undone that were done before. */
function findPutAways() {
  for (const put of putAways) {
    if (put.index !== undefined || !(put.rev <= board.rev)) continue;
    Object.assign(put, { index: board.confirmed[LISTS.length][0] - 1, below: board.undoable });
  }
}

async function bringBack({ list: k, place, value, index }) {
  const path = `${LISTS[k].path}/${Math.min(place, list(board.slots[k][0]).length)}`;
  // It stands further in front where others brought theirs back.
  for (let at = index; at >= 0; at -= 1) {
    const from = `${AWAY}/${at}`;
    const patch = [{ op: "test", path: from, value }, { op: "move", from, path }];
    try {
      return await board.edit(patch, { undo: false });
    } catch (cause) {
      if (cause.at !== 0) return say(failure(cause));
    }
  }
  say(ELSEWHERE);
}

function step(which) {
  const next = async () => {
    if (board.pending > 0) await board.sync();
    const isOfCard = which === "undo" && putAways.at(-1)?.below >= board.undoable;
    await (isOfCard ? bringBack(putAways.pop()) : board[which]());
  };
  steps = steps
    .then(next)
    .catch((cause) => say(failure(cause)))
    .then(() => tell(board.state));
}

// Elements.

function column({ name, path }) {
  const section = at("#column").content.cloneNode(true).querySelector("section");
  const input = section.querySelector("input");
  let draft = unsaved.left(path) ?? { place: path, text: "" };
  input.value = draft.text;
  section.querySelector(".name").textContent = name;
  input.setAttribute("aria-label", `Add a card to ${name}`);
  input.oninput = () => {
    typed.add(input);
    draft.text = input.value;
    unsaved.keep(draft);
  };
  section.querySelector("form").onsubmit = (event) => {
    event.preventDefault();
    const value = input.value.trim();
    if (value !== "") addText(unsaved.keep({ place: "added", path, text: value }));
    unsaved.drop(draft);
    draft = { place: path, text: "" };
    typed.delete(input);
    input.value = "";
  };
  at("main").append(section);
  return section.querySelector("ol");
}

function card(value) {
  const element = at("#card").content.cloneNode(true).querySelector("li");
  const seen = () => cards.seen(element);
  element.querySelector(".text").textContent = text(value);
  element.querySelector(".text").onclick = () => write(element);
  element.querySelector(".back").onclick = () => move(seen(), seen().list - 1, "-");
  element.querySelector(".on").onclick = () => move(seen(), seen().list + 1, "-");
  element.querySelector(".off").onclick = () => putAway(seen());
  // No `on..` property: what such a handler returns may keep a key from the input in the card.
  element.addEventListener("keydown", (event) => {
    if (event.target === element) key(event, element);
  });
  draggable(element, lists, (dropped, list, place) => move(seen(), list, place));
  return element;
}

// A card's text becomes an input until Enter, Escape, a click elsewhere or the end of the page. If
// nothing was typed, it also ends when the window loses the focus or the card is gone.
function write(element) {
  const draft = draftOf(cards.seen(element));
  const isTyped = () => draft.text !== text(draft.card.value);
  const input = document.createElement("input");
  const shown = element.querySelector(".text");
  Object.assign(input, { value: draft.text, maxLength: 200 });
  input.setAttribute("aria-label", "the card's text");
  input.oninput = () => {
    typed.add(input);
    draft.text = input.value.trim();
    unsaved.keep(draft);
  };
  input.addEventListener("keydown", ({ key }) => {
    if (key === "Escape") draft.text = text(draft.card.value);
    if (key === "Enter" || key === "Escape") endWriting(element);
  });
  input.onblur = () => {
    if (isDrawing) return; // somebody else moved the card
    if (document.activeElement !== input) endWriting();
    // Another window came to the front, and somebody still types here.
    else if (!document.hasFocus() && !isTyped()) endWriting(element);
  };
  lookAgain = () => {
    if (cards.has(element)) {
      Object.assign(draft, draftOf(cards.seen(element)), { text: draft.text });
    } else if (!isTyped()) {
      endWriting(element);
      say(CHANGED);
    }
  };
  endWriting = (next = null) => {
    written = null;
    lookAgain = endWriting = () => {};
    input.replaceWith(shown);
    next?.focus();
    if (!cards.has(element)) cards.drop(element);
    saveText(draft);
    showCards(board.slots);
  };
  written = element;
  shown.replaceWith(input);
  input.focus();
}

const ARROWS = { ArrowLeft: [-1, 0], ArrowRight: [1, 0], ArrowUp: [0, -1], ArrowDown: [0, 1] };

// Keys on a card: arrows go to another one, and with Alt take it along.
function key(event, element) {
  const { list, place } = cards.seen(element);
  const [aside, down] = ARROWS[event.key] ?? [];
  if (event.key === "Enter") write(element);
  else if (event.key === "Delete") putAway(cards.seen(element));
  else if (aside === undefined || lists[list + aside] === undefined) return;
  else if (event.altKey) carry(cards.seen(element), list + aside, place + down);
  else choose(list + aside, place + down);
  event.preventDefault();
}

function carry(seen, list, place) {
  const last = cards.of(list).length - (seen.list === list ? 1 : 0);
  if (place >= 0 && (seen.list !== list || place <= last)) move(seen, list, Math.min(place, last));
}

function choose(list, place) {
  cards.near(list, place)?.focus();
}

/** True of an input with a text, or in which somebody typed: the browser undoes that. */
function isWritten(element) {
  return element.tagName === "INPUT" && (element.value !== "" || typed.has(element));
}

at("#undo").onclick = () => step("undo");
at("#redo").onclick = () => step("redo");
addEventListener("keydown", (event) => {
  const isUndo = event.key.toLowerCase() === "z" && (event.ctrlKey || event.metaKey);
  if (!isUndo || isWritten(event.target)) return;
  event.preventDefault();
  step(event.shiftKey ? "redo" : "undo");
});

offerAfterRestart(board, {
  words: wordsOf,
  gone: (before, now) => [...missing(before, now), ...missingAway(before, now)],
  putBack: (before) => board.change((document) => putBack(document, before)),
});

/** Tells how many cards are gone, and how many of those that were put away. */
function wordsOf(gone) {
  const seen = gone.filter(({ name }) => name !== null).length;
  const away = gone.length - seen;
  const cards = seen === 1 ? "a card is gone" : `${seen} cards are gone`;
  const others =
    away === 1 ? "a card that was put away is gone" : `${away} that were put away are gone`;
  return [seen && cards, away && `${others} for good`].filter(Boolean).join(", and ");
}

/** As many as were put away before and are not now. No window has what is written on them. */
function missingAway(before, now) {
  const [had, has] = [before, now].map((slots) => slots[LISTS.length][0] ?? 0);
  return Array(Math.max(0, had - has)).fill({ name: null });
}

/** Cards of slots of before that no list has now, each with the name of its list. */
function missing(before, now) {
  const there = LISTS.flatMap((_, k) => list(now[k][0])).map((value) => JSON.stringify(value));
  const isGone = (value) => {
    const at = there.indexOf(JSON.stringify(value));
    if (at >= 0) there.splice(at, 1);
    return at < 0;
  };
  return LISTS.flatMap(({ path }, k) =>
    list(before[k][0]).filter(isGone).map((value) => ({ name: path.slice(1), value })),
  );
}

function putBack(document, before) {
  const now = LISTS.map(({ path }) => [document[path.slice(1)]]);
  for (const { name, value } of missing(before, now)) {
    document[name] = [...list(document[name]), value];
  }
}
