// The whiteboard of whiteboard.html: shapes in an object of the document, by their ids. Each has
// its kind, its place and its text, so that who writes on a note does not disturb who moves it.
// What somebody writes is saved as they write, and only over what they saw (notes.js). A
// shape that is dragged moves here at once, and its place is set up to 30 times a second. Where the
// relay answers more slowly than that, `set` sends the newest place when it has answered.
"use strict";

const SHAPES = "/shapes";
const RATE = 30; // places a second that a drag sets at most
const STEP = 10; // pixels that an arrow moves a shape
const ARROWS = { ArrowLeft: [-1, 0], ArrowRight: [1, 0], ArrowUp: [0, -1], ArrowDown: [0, 1] };

const { url } = visit("whiteboard");
const unsaved = new Unsaved(`whiteboard ${url}`);
const at = (selector) => document.querySelector(selector);
const plane = at("#plane");
const shapes = new Shapes(plane, shape);

const board = relay.connect(url, {
  view: [SHAPES],
  begin: { shapes: {} },
  onChange: draw,
  onState: tell,
});
board.ready.then(resumeNotes, (cause) => say(failure(cause)));

// What is shown.

function draw({ slots, rev }) {
  const shown = object(slots[0][0]);
  offerGone(shown);
  shapes.show(shown);
  lookAtNotes();
  document.title = `Whiteboard, revision ${rev}`;
  tell(board.state);
}

function tell(state, cause = null) {
  setText(at("#state"), connection(state, cause, board?.pending ? "saving" : "connected"));
  at("#state").dataset.state = state;
}

// What is done.

/** Does something at once, and says it if it is refused. */
function act(promise) {
  promise.catch((cause) => say(failure(cause)));
}

function pointerOf(...keys) {
  return SHAPES + relay.pointer(...keys);
}

/** At the centre of what is seen of the plane, each a little further than the one before. */
function add(kind, text = "") {
  const id = Date.now().toString(36) + Math.random().toString(36).slice(2, 8);
  const { scrollLeft, scrollTop, clientWidth, clientHeight } = at("main");
  const aside = 24 * (plane.children.length % 6);
  const x = Math.round(scrollLeft + clientWidth / 2) - 150 + aside;
  const y = Math.round(scrollTop + clientHeight / 2) - 110 + aside;
  const value = { kind, at: { x: Math.max(x, 0), y: Math.max(y, 0) }, text };
  const there = board.at(SHAPES);
  if (object(there.value) === there.value) {
    const made = board.edit([{ op: "add", path: pointerOf(id), value }], { optimistic: true });
    shapes.of(id)?.focus();
    return made;
  }
  // Something that is no object stands there: one takes its place, if nobody is faster.
  return there.update((seen) => ({ ...object(seen), [id]: value }));
}

function move(id, place) {
  act(board.at(pointerOf(id, "at")).set(place));
}

function remove(id) {
  act(board.edit([{ op: "remove", path: pointerOf(id) }], { optimistic: true }));
}

// Elements.

function shape(id) {
  const element = at("#shape").content.cloneNode(true).querySelector(".shape");
  element.querySelector(".off").onclick = () => remove(id);
  element.ondblclick = () => write(id, element);
  // No `on..` property: what such a handler returns may keep a key from the text in the note.
  element.addEventListener("keydown", (event) => {
    if (event.target === element) key(event, id, element);
  });
  carried(element, hand(id, element));
  return element;
}

/** The acts of a shape while it follows the pointer. */
function hand(id, element) {
  const set = paced(RATE, (place) => element.isConnected && move(id, place));
  let start;
  return {
    lifted() {
      start = { x: element.offsetLeft, y: element.offsetTop };
      shapes.hold(element);
    },
    moved({ x, y }) {
      const { left, top } = plane.getBoundingClientRect();
      set.soon(shapes.place(element, { x: x - left, y: y - top }));
    },
    dropped(isBack) {
      if (isBack) set.soon(start);
      set.now();
      shapes.release();
    },
  };
}

function key(event, id, element) {
  const [right, down] = ARROWS[event.key] ?? [];
  if (event.key === "Enter") write(id, element);
  else if (event.key === "Delete" || event.key === "Backspace") remove(id);
  else if (right === undefined) return;
  else {
    const step = event.shiftKey ? 1 : STEP;
    const { offsetLeft, offsetTop } = element;
    move(id, shapes.place(element, { x: offsetLeft + right * step, y: offsetTop + down * step }));
  }
  event.preventDefault();
}

for (const button of document.querySelectorAll(".tools button")) {
  button.onclick = () => act(add(button.dataset.kind));
}

offerAfterRestart(board, {
  words: ({ length }) => (length === 1 ? "a shape is gone" : `${length} shapes are gone`),
  gone: (before, now) =>
    Object.keys(object(before[0][0])).filter((id) => !Object.hasOwn(object(now[0][0]), id)),
  putBack: (before) => board.change((document) => putBack(document, before[0][0])),
});

function putBack(document, before) {
  if (object(document.shapes) !== document.shapes) document.shapes = {};
  for (const [id, shape] of Object.entries(before)) document.shapes[id] ??= shape;
}
