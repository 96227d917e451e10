// The texts of the cards of board.html. A text is kept in this browser until the relay has it. It
// finds its card by its value, wherever somebody moved that; if the card is another one by then,
// the text is offered again beside what stands there.
"use strict";

const TRIES = 5;
const CHANGED = "Meanwhile somebody changed that card, or put it away.";

/** The cause of a save when no card has the value any more. */
class Gone extends Error {}

/** A draft of a card's text: the card as its writer saw it, and the list that it was in. */
function draftOf({ list: k, place, value }) {
  const others = list(board.slots[k][0]).filter((_, other) => other !== place);
  return { place: "card", card: { list: k, place, value }, others, text: text(value) };
}

/** Has the relay set a card's text. */
async function saveText(draft) {
  if (["", text(draft.card.value)].includes(draft.text)) return unsaved.drop(draft);
  unsaved.keep(draft);
  try {
    await board.change((document) => putText(document, draft), { tries: TRIES });
    unsaved.drop(draft);
  } catch (cause) {
    if (!(cause instanceof relay.Unknown)) askOf(draft, cause);
    else if (await isDone(draft)) unsaved.drop(draft);
    else saveText(draft);
  }
}

function putText(document, { card, text }) {
  const found = placeOf(document, card);
  if (found === null) throw new Gone();
  document[found.name][found.place] = text;
}

/** Tells whether an edit whose answer was lost was done, once the connection is back. */
async function isDone({ text }) {
  await board.sync().catch(() => {});
  return isThere(text);
}

/** The list and the place of a card now: where it was seen, or else where its value is. */
function placeOf(document, { list: k, place, value }) {
  const wanted = JSON.stringify(value);
  const names = LISTS.map(({ path }) => path.slice(1));
  if (JSON.stringify(list(document[names[k]])[place]) === wanted) return { name: names[k], place };
  for (const name of [names[k], ...names]) {
    const at = list(document[name]).findIndex((other) => JSON.stringify(other) === wanted);
    if (at >= 0) return { name, place: at };
  }
  return null;
}

function isThere(text) {
  return LISTS.some((_, k) => list(board.slots[k][0]).includes(text));
}

/** The text that somebody else gave the card, or null if that is not known. */
function theirs({ card, others }) {
  const now = list(board.slots[card.list][0]);
  const left = [...others];
  const news = now.filter((value) => {
    const at = left.indexOf(value);
    if (at >= 0) left.splice(at, 1);
    return at < 0;
  });
  return left.length === 0 && news.length === 1 && typeof news[0] === "string" ? news[0] : null;
}

// The question is kept with the text: until it is answered no page saves the text by itself, since
// the card may be as its writer saw it again.
function askOf(draft, cause) {
  draft.why = cause instanceof Gone ? CHANGED : failure(cause);
  offerText(unsaved.keep(draft));
}

function offerText(draft) {
  const meant = theirs(draft);
  const yours = `You wrote “${draft.text}”.`;
  const drop = () => unsaved.drop(draft);
  const add = () => {
    const { list: k, text } = { ...draft.card, ...draft };
    addText(unsaved.keep({ place: "added", path: LISTS[k].path, text }));
    drop();
  };
  if (meant === null) {
    return offer(draft, `${draft.why} ${yours}`, { "Add it as a card": add, "Let it go": drop });
  }
  const keep = () => {
    delete draft.why;
    draft.card.value = meant;
    saveText(draft);
  };
  const choices = { "Keep yours": keep, "Keep both": add, "Take theirs": drop };
  offer(draft, `Meanwhile somebody wrote “${meant}”. ${yours}`, choices);
}

/** Has the relay add a card. */
async function addText(draft) {
  const { path, text } = draft;
  const there = board.at(path);
  try {
    // Something may stand there that is no list: one takes its place, if nobody is faster.
    await (Array.isArray(there.value)
      ? board.edit([{ op: "add", path: `${path}/-`, value: text }], { optimistic: true })
      : there.update((seen) => [...list(seen), text]));
    unsaved.drop(draft);
  } catch (cause) {
    if (cause instanceof relay.Unknown && (await isDone(draft))) unsaved.drop(draft);
    else offerCard(draft, failure(cause));
  }
}

function offerCard(draft, why) {
  offer(draft, `${why} You wrote “${draft.text}”.`, {
    "Add it as a card": () => addText(draft),
    "Let it go": () => unsaved.drop(draft),
  });
}

/** Goes on with what an earlier page left. */
function resumeTexts() {
  for (const draft of unsaved.allLeft((place) => place === "card" || place === "added")) {
    if (isThere(draft.text)) unsaved.drop(draft);
    else if (draft.why) offerText(draft);
    else if (draft.place === "card") saveText(draft);
    else offerCard(draft, "A card of yours may not have been saved.");
  }
}
