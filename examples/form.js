// Each field is a slot of its own, saved as somebody writes in it, and only over what they saw: if
// somebody else wrote there meanwhile, both texts are shown, and the writer chooses.
"use strict";

const FIELDS = [
  { name: "place", label: "Where" },
  { name: "time", label: "When" },
  { name: "guests", label: "Who comes" },
  { name: "notes", label: "Notes", long: true },
];
const { url, name } = visit("form");
const unsaved = new Unsaved(`form ${url}`);

const board = relay.connect(url, {
  view: FIELDS.map(({ name }) => `/${name}`),
  begin: Object.fromEntries(FIELDS.map(({ name }) => [name, { text: "", by: "" }])),
  onState: (state, cause) => {
    setText(document.querySelector("#state"), connection(state, cause, "saved as you go"));
  },
});

/** The text of a field's value, whatever anyone wrote there. */
function textOf(value) {
  return text(object(value).text);
}

FIELDS.forEach(({ name: field, label, long }) => {
  const shown = document.createElement("label");
  const input = document.createElement(long ? "textarea" : "input");
  const note = Object.assign(document.createElement("div"), { className: "note" });
  const place = board.at(`/${field}`);
  const writing = new Writing(board, unsaved, field, {
    now: () => textOf(place.value),
    read: (document) => text(document[field]?.text),
    put: (document, text) => void (document[field] = { text, by: name }),
    ended: show,
    differs: choose,
    failed: (cause) => setText(note, failure(cause)),
  });
  note.setAttribute("role", "status");
  shown.append(label, input);
  document.querySelector("form").append(shown, note);

  function show() {
    if (writing.text !== null) return writing.look();
    const { by } = object(place.value);
    if (input.value !== textOf(place.value)) input.value = textOf(place.value);
    note.classList.remove("conflict");
    setText(note, text(by) && `by ${text(by)}`);
  }

  function choose(yours) {
    const { text: theirs, by } = object(place.value);
    const words = `Meanwhile ${text(by) || "somebody"} wrote “${text(theirs)}”. `;
    if (input.value !== yours) input.value = yours;
    if (note.firstChild?.textContent === words) return;
    note.classList.add("conflict");
    const [keep, take] = [button("Keep yours", insist), button("take theirs", drop)];
    note.replaceChildren(words, keep, " or ", take);
  }

  function insist() {
    note.classList.remove("conflict");
    setText(note, "");
    writing.insist();
  }

  function drop() {
    writing.drop();
    input.focus();
  }

  input.disabled = true;
  board.ready.then(
    () => {
      input.disabled = false;
      show();
      writing.resume();
      if (writing.text !== null) input.value = writing.text;
    },
    (cause) => setText(note, failure(cause)),
  );
  input.oninput = () => writing.write(input.value);
  input.onblur = () => void writing.save();
  place.subscribe(show);
});

offerAfterRestart(board, {
  words: ({ length }) => (length === 1 ? "a field is empty now" : `${length} fields are empty now`),
  gone: (before, now) =>
    FIELDS.filter((_, k) => textOf(before[k][0]) !== "" && textOf(now[k][0]) === ""),
  putBack: (before) => board.change((document) => putBack(document, before)),
});

function putBack(document, before) {
  FIELDS.forEach(({ name: field }, k) => {
    const isEmpty = text(document[field]?.text) === "";
    if (isEmpty && before[k].length > 0) document[field] = before[k][0];
  });
}
