#!/usr/bin/env node
// The relay's protocol (docs/PROTOCOL.md) as a server of Node's `ws` would be written: as far as a
// load speaks it, to be measured beside.
//
//     server.js serve [--port PORT]
//
// It listens on 127.0.0.1, on a free port if none is named, and prints `listening PORT`.
//
// It has rooms, edits by JSON Patch, whole or not at all, and views of values. A patch is told as
// one text to all who watch the same view: the operations as they came where they stay within what
// a slot shows, and else what the slot shows now.
//
// Left out: `base`, `unwatch` and `resume`, so no history; slots that show a size; each limit (of
// texts, documents, views, rooms, sessions, and of what waits for a watcher who does not read);
// numbers past 2^53, and the refusal of those that are not whole.
"use strict";
const { WebSocketServer } = require("ws");
const { Refused, apply, get, held, tokens } = require("./patch.js");

const EPOCH = 1;

/** The slot of a pointer: `[value]`, or `[]` where nothing stands there. */
function shown(holder, pointer) {
  try {
    return [get(holder, pointer)];
  } catch (fault) {
    if (fault instanceof Refused) return [];
    throw fault;
  }
}

// Pointers have one spelling, so one leads into another where its text goes on from the other's, by
// a slash.
function leadsInto(inner, outer) {
  return inner.length > outer.length && inner.startsWith(outer) && inner[outer.length] === "/";
}

// The parts behind a part move where it comes or goes at what may be a place in a list.
function moved(path) {
  const slash = path.lastIndexOf("/");
  return /^(-|[0-9]+)$/.test(path.slice(slash + 1)) ? path.slice(0, slash) : path;
}

/**
 * Tells what a change at a path means to a slot: that it is `apart`, `inside` what the slot shows,
 * or that the slot is to be told anew.
 */
function touch(pointer, path, op) {
  if (leadsInto(path, pointer)) return "inside";
  const stem = op === "replace" ? path : moved(path);
  return stem === pointer || leadsInto(pointer, stem) ? "anew" : "apart";
}

/**
 * The touches of an operation: a move makes a change at both its places, and a copy wants its
 * source within the slot too.
 */
function touches(pointer, { op, from, path }) {
  const target = touch(pointer, path, op);
  if (op === "move") return [touch(pointer, from, op), target];
  if (op === "copy" && target === "inside" && !leadsInto(from, pointer)) return ["anew"];
  return [target];
}

function local(slot, pointer, operation) {
  const made = { ...operation, path: `/${slot}/0${operation.path.slice(pointer.length)}` };
  if ("from" in operation) made.from = `/${slot}/0${operation.from.slice(pointer.length)}`;
  return made;
}

/** The operations that bring a slot up to date. */
function told(holder, slot, pointer, changes) {
  const within = [];
  for (const change of changes) {
    const all = touches(pointer, change);
    if (all.every((one) => one === "apart")) continue;
    if (!all.every((one) => one === "inside")) {
      return [{ op: "replace", path: `/${slot}`, value: shown(holder, pointer) }];
    }
    within.push(local(slot, pointer, change));
  }
  return within;
}

class Room {
  #holder = held(null);
  #views = new Map(); // the watchers of each view, by its text
  rev = 0;

  edit(patch) {
    apply(this.#holder, patch);
    this.rev += 1;
  }

  /** Tells the watchers of an edit that was done. */
  tell(patch) {
    const changes = patch.filter(({ op }) => op !== "test");
    for (const { pointers, watchers } of this.#views.values()) {
      const operations = pointers.flatMap((pointer, slot) =>
        told(this.#holder, slot, pointer, changes),
      );
      if (operations.length === 0) continue;
      const text = Buffer.from(JSON.stringify({ kind: "patch", patch: operations, rev: this.rev }));
      for (const watcher of watchers) watcher.send(text, { binary: false });
    }
  }

  watch(socket, pointers) {
    this.leave(socket);
    const name = JSON.stringify(pointers);
    if (!this.#views.has(name)) this.#views.set(name, { pointers, watchers: new Set() });
    this.#views.get(name).watchers.add(socket);
  }

  snapshot(pointers) {
    return {
      kind: "snapshot",
      rev: this.rev,
      view: pointers.map((pointer) => shown(this.#holder, pointer)),
    };
  }

  leave(socket) {
    for (const [name, { watchers }] of this.#views) {
      watchers.delete(socket);
      if (watchers.size === 0) this.#views.delete(name);
    }
  }
}

function say(socket, message) {
  socket.send(JSON.stringify(message));
}

// Each answers its request; the reply goes out before what is told.
const REQUESTS = {
  edit(room, socket, { id, patch }) {
    room.edit(patch);
    say(socket, { id, kind: "done", rev: room.rev });
    room.tell(patch);
  },
  watch(room, socket, { id, view }) {
    if (!Array.isArray(view)) throw new Refused("shape");
    view.forEach(tokens);
    room.watch(socket, view);
    say(socket, { id, kind: "watching" });
    say(socket, room.snapshot(view));
  },
};

function read(text) {
  try {
    return JSON.parse(text);
  } catch {
    throw new Refused("not-json");
  }
}

function hear(room, socket, text) {
  let request = null;
  try {
    request = read(text);
    if (!Number.isInteger(request?.id) || !Object.hasOwn(REQUESTS, request.do)) {
      throw new Refused("shape");
    }
    REQUESTS[request.do](room, socket, request);
  } catch (fault) {
    if (!(fault instanceof Refused)) throw fault;
    say(socket, { at: fault.at, fault: fault.word, id: request?.id ?? null, kind: "refused" });
  }
}

function serve(port) {
  const rooms = new Map();
  let sessions = 0;
  const server = new WebSocketServer({ host: "127.0.0.1", port });
  server.on("connection", (socket, { url }) => {
    if (!rooms.has(url)) rooms.set(url, new Room());
    const room = rooms.get(url);
    sessions += 1;
    say(socket, { epoch: EPOCH, kind: "welcome", rev: room.rev, session: sessions });
    socket.on("message", (text) => hear(room, socket, text));
    socket.on("close", () => room.leave(socket));
    socket.on("error", () => {}); // a close follows
  });
  server.on("listening", () => console.log(`listening ${server.address().port}`));
}

const port = process.argv.indexOf("--port");
serve(port < 0 ? 0 : Number(process.argv[port + 1]));
