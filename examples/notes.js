// The texts of the notes of whiteboard.html. Each is saved as somebody writes it; a text that
// somebody else was faster with, or of a note that is gone, is offered again beside what stands
// there.
"use strict";

const writings = new Map(); // by the ids of their notes
const GONE = "That note is gone.";

/** The cause of a save when somebody has deleted the note. */
class Gone extends Meanwhile {}

function hasNote(id) {
  return Object.hasOwn(object(board.slots?.[0][0]), id);
}

function textOfNote(id) {
  return text(object(object(board.slots?.[0][0])[id]).text);
}

function writingOf(id) {
  if (!writings.has(id)) writings.set(id, new Writing(board, unsaved, `note ${id}`, noteField(id)));
  return writings.get(id);
}

function noteField(id) {
  const about = `note ${id}`;
  const writing = () => writings.get(id);
  const drop = () => writing().drop();
  const anew = () => {
    const written = writing().text;
    drop();
    addNote(unsaved.keep({ place: "new", text: written }));
  };
  const offerAnew = (why, yours) => {
    const choices = { "Put it on a new note": anew, "Let it go": drop };
    offer(about, `${why} You wrote “${yours}”.`, choices);
  };
  return {
    now: () => textOfNote(id),
    read: (document) => {
      if (document.shapes?.[id] === undefined) throw new Gone();
      return text(document.shapes[id].text);
    },
    put: (document, written) => void (document.shapes[id].text = written),
    ended: () => {
      withdraw(about);
      lookAtNotes();
    },
    differs: (yours) => {
      if (!hasNote(id)) return offerAnew(GONE, yours);
      offer(about, `Meanwhile somebody wrote “${textOfNote(id)}”. You wrote “${yours}”.`, {
        "Keep yours": () => writing().insist(),
        "Keep both": anew,
        "Take theirs": drop,
      });
    },
    failed: (cause, yours) => offerAnew(failure(cause), yours),
  };
}

/** Makes a note of a text that has no place yet. */
function addNote(draft) {
  const failed = (cause) => offerNote(draft, failure(cause));
  add("note", draft.text).then(() => unsaved.drop(draft), failed);
}

function offerNote(draft, why) {
  offer(draft, `${why} You wrote “${draft.text}”.`, {
    "Put it on a new note": () => addNote(draft),
    "Let it go": () => unsaved.drop(draft),
  });
}

/** A note's text becomes an input until Escape or a click elsewhere. */
function write(id, element) {
  if (element.dataset.kind !== "note" || element.querySelector("textarea")) return;
  const writing = writingOf(id);
  const value = writing.text ?? textOfNote(id);
  const input = Object.assign(document.createElement("textarea"), { value, maxLength: 500 });
  input.setAttribute("aria-label", "the note's text");
  input.addEventListener("keydown", ({ key }) => key === "Escape" && element.focus());
  input.oninput = () => writing.write(input.value);
  input.onblur = () => {
    // Another window came to the front, and somebody still writes here.
    if (document.activeElement === input) return;
    input.remove();
    writing.save();
  };
  element.append(input);
  input.focus();
}

/** Shows in a note that is being written, and where nothing is written yet, what others wrote. */
function lookAtNotes() {
  for (const [id, writing] of writings) {
    const input = shapes.of(id)?.querySelector("textarea");
    if (writing.text !== null) writing.look();
    else if (input && input.value !== textOfNote(id)) input.value = textOfNote(id);
  }
}

/** Offers the text of a note that goes while somebody writes in it, and had saved it. */
function offerGone(shown) {
  for (const [id, writing] of writings) {
    const input = shapes.of(id)?.querySelector("textarea");
    if (!input || Object.hasOwn(shown, id) || writing.text !== null) continue;
    if (input.value === "") say(GONE);
    else offerNote(unsaved.keep({ place: "new", text: input.value }), GONE);
  }
}

/** Goes on with what an earlier page left. */
function resumeNotes() {
  const notes = new Map(Object.keys(object(board.slots[0][0])).map((id) => [`note ${id}`, id]));
  for (const [place, id] of notes) if (unsaved.has(place)) writingOf(id).resume();
  const others = unsaved.allLeft((place) => !notes.has(place));
  for (const draft of others) {
    if ([...notes.values()].some((id) => textOfNote(id) === draft.text)) unsaved.drop(draft);
    else offerNote(draft, GONE);
  }
}
