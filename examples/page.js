// The common parts of the pages: the room and the name that an address asks for, values of any
// shape, and what is said of the connection and of a refused edit.
"use strict";

const TREES = "Ash Birch Cedar Elm Fir Hazel Juniper Linden Maple Oak Pine Rowan Willow Yew";
const NAMES = TREES.split(" ");

const FAULTS = {
  "test-failed": "somebody changed that first",
  missing: "that is gone",
  "past-end": "that place is gone",
  "no-container": "the document has no place for that",
  "too-heavy": "the document is full",
  changed: "somebody changed that since",
  away: "there is no connection",
  "read-only": "this window only watches",
};

/**
 * The address of a room, and a name. `?url=wss://example.org/rooms/NAME` is a room anywhere;
 * `?port=8080&room=NAME` one of a relay on this machine. `?name=` is who visits; without it a
 * window has a name of its own. Ends the page's script if no room has such an address.
 */
function visit(room) {
  const asked = new URLSearchParams(location.search);
  const [port, own] = [asked.get("port") ?? 8080, asked.get("room") ?? room];
  const url = asked.get("url") ?? `ws://127.0.0.1:${port}/rooms/${encodeURIComponent(own)}`;
  checkAddress(url, asked);
  const name =
    asked.get("name") ?? (sessionStorage.name ??= NAMES[Math.floor(Math.random() * NAMES.length)]);
  return { url, name };
}

const ROOM = /^[A-Za-z0-9_-]{1,64}$/;

/** Says what is wrong with a room's address, and offers one like it that is right. */
function checkAddress(url, asked) {
  const parts = /^(wss?:[/][/][^/?#]+[/]rooms[/])([^/?#]*)$/.exec(url);
  if (parts === null || !URL.canParse(url)) {
    const wanted = "that is ws://HOST:PORT/rooms/NAME, or wss://.";
    refuse(`“${withoutUser(url)}” is no room's address: ${wanted}`);
  }
  const name = decoded(parts[2]);
  if (ROOM.test(name)) return;
  const better = name.replace(/[^A-Za-z0-9_-]+/g, "-").slice(0, 64) || "board";
  if (asked.has("url")) asked.set("url", parts[1] + better);
  else asked.set("room", better);
  const link = Object.assign(document.createElement("a"), { href: `?${asked}` });
  link.textContent = `Open “${better}”`;
  refuse(`“${name}” is no room's name: 1 to 64 of A-Z, a-z, 0-9, - and _.`, link);
}

/** The address as it may be shown: without a name and a password. */
function withoutUser(url) {
  return url.replace(/[/][/].*@/, "//***@");
}

function decoded(part) {
  try {
    return decodeURIComponent(part);
  } catch {
    return part;
  }
}

function refuse(words, ...more) {
  const state = document.querySelector("#state");
  state.dataset.state = "closed";
  state.replaceChildren(words, ...more.flatMap((each) => [" ", each]));
  throw new RangeError(words);
}

// Anyone in a room may write anything there: what is no text, no list or no object shows as an
// empty one.

function text(value) {
  return typeof value === "string" ? value : "";
}

function list(value) {
  return Array.isArray(value) ? value : [];
}

function object(value) {
  return typeof value === "object" && value !== null && !Array.isArray(value) ? value : {};
}

/** Calls a function before the page goes. Firefox ends the connections before `pagehide`. */
function beforeLeaving(act) {
  addEventListener("beforeunload", act);
  addEventListener("pagehide", act);
}

/** Words for a state of the connection; `open` are those for one that is there. */
function connection(state, cause, open) {
  if (cause?.reason) return `${cause.message}; trying again`;
  if (state === "closed" && cause) return `closed: ${cause.message}`;
  return { open, waiting: "connection lost, trying again" }[state] ?? state;
}

/** Sets a text if it is another one, so that a live region says nothing twice. */
function setText(element, words) {
  if (element.textContent !== words) element.textContent = words;
}

/** Words for what became of an edit that failed. */
function failure(cause) {
  if (cause instanceof relay.Refused) return `Not done: ${FAULTS[cause.fault] ?? cause.fault}.`;
  return cause instanceof relay.Unknown
    ? "Perhaps not done: the connection was lost before the answer."
    : `Not done: ${cause.message}.`;
}

let silence;
/** Says something for a while, in the page's `#word`. */
function say(words) {
  const word = document.querySelector("#word");
  word.textContent = words;
  word.hidden = false;
  clearTimeout(silence);
  silence = setTimeout(() => (word.hidden = true), 6000);
}
