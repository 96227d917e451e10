// A lobby shows how many sit at each table, and not who: it watches sizes, and is told nothing of
// what the players do there. A seat is taken by a patch that fits only while it is free. What is
// played at a table is in a room of its own, and the last to leave it ends it. A tab that is
// killed says nothing more: its wills take it from the lobby and from the match, and give its
// seat back. If it was the last in the match, the room stays, and who sits down there next goes
// on in it.
"use strict";

const TABLES = ["north", "east", "south", "west"];
const SEATS = 2;
const { url, name } = visit("lobby");
const free = Object.fromEntries([...Array(SEATS).keys()].map((seat) => [`free${seat}`, null]));
const sizes = TABLES.map((table) => ({ size: `/tables/${table}/players` }));
const begun = Object.fromEntries(TABLES.map((table) => [table, { free, players: {} }]));
const at = (selector) => document.querySelector(selector);
const tables = TABLES.map(tableOf);

const board = relay.connect(url, {
  view: [...sizes, { size: "/here" }, "/here"],
  begin: { here: {}, tables: begun },
  onChange: draw,
  onState: (state, cause) => {
    setText(at("#state"), connection(state, cause, `You are ${name}.`));
    // The will of a connection that is lost gives the seat back.
    if (state === "waiting" && seat !== null) standUp();
  },
});
const here = relay.presence(board, "/here", { name });
addEventListener("pagehide", () => seat !== null && leave());
let seat = null; // where this player sits, and the match that is played there

function draw({ slots }) {
  drawMatch();
  const names = Object.values(here.people).map(({ name }) => text(name));
  setText(at("#people"), `${slots[TABLES.length][0] ?? 0} here: ${names.join(", ")}`);
  TABLES.forEach((table, k) => drawTable(table, tables[k], slots[k][0] ?? 0));
}

// The button stays, and a table that is full does not disable it, so it keeps the focus.
function drawTable(table, { players, button }, taken) {
  const mine = seat?.table === table;
  const isFull = !mine && (seat !== null || taken >= SEATS);
  setText(players, `${taken} of ${SEATS} players`);
  setText(button, mine ? "Leave" : "Sit down");
  button.setAttribute("aria-label", `${button.textContent}: ${table}`);
  button.setAttribute("aria-disabled", String(isFull));
}

/** The elements of a table that change. */
function tableOf(table) {
  const item = document.createElement("li");
  const [players, button] = [element("p", ""), element("button", "Sit down")];
  button.onclick = () => {
    if (button.getAttribute("aria-disabled") === "true") return;
    if (seat?.table === table) leave();
    else sit(table);
  };
  item.append(element("h2", table), players, button);
  at("#tables").append(item);
  return { players, button };
}

function element(tag, textContent) {
  return Object.assign(document.createElement(tag), { textContent });
}

// The free seats are members that go one by one: whoever is late finds none, and tries the next.
async function sit(table) {
  for (const chair of Object.keys(free)) {
    const player = `/tables/${table}/players/${chair}`;
    const place = `/tables/${table}/free/${chair}`;
    const takes = [
      { op: "remove", path: place },
      { op: "add", path: player, value: here.id },
    ];
    // By then somebody else may sit there.
    const givesBack = [
      { op: "test", path: player, value: here.id },
      { op: "remove", path: player },
      { op: "add", path: place, value: null },
    ];
    try {
      await will(givesBack); // before the seat is taken, so that it is never lost
      await board.edit(takes, { optimistic: true });
      seat = { table, givesBack, ...entered(table) };
      return draw(board);
    } catch (cause) {
      if (cause.fault !== "missing") return say(failure(cause));
    }
  }
  will([]);
  say(`No seat is free in the ${table}.`);
}

// An older relay knows no wills. There a tab that is killed keeps its seat.
function will(patch) {
  return board.will(patch).catch(() => {});
}

async function leave() {
  const done = board.edit(seat.givesBack).catch((cause) => say(failure(cause)));
  standUp();
  await done;
  draw(board);
}

function standUp() {
  const { match, players } = seat;
  seat = null;
  will([]);
  leaveMatch(match, players);
}

function entered(table) {
  const address = new URL(url);
  address.pathname += `-${table}`;
  const match = relay.connect(address.href, {
    view: ["/players", "/last"],
    begin: { players: {}, last: "Nobody has rolled yet." },
    onChange: drawMatch,
  });
  return { match, players: relay.presence(match, "/players", { name }) };
}

function drawMatch() {
  const section = at("#match");
  section.hidden = (seat?.match.slots ?? null) === null;
  if (section.hidden) return;
  const names = Object.values(seat.players.people).map(({ name }) => text(name));
  setText(section.querySelector("h2"), `${seat.table}: ${names.join(", ")}`);
  setText(section.querySelector("p"), text(seat.match.at("/last").value));
}

at("#match button").onclick = () => {
  const rolled = `${name} rolled a ${1 + Math.floor(Math.random() * 6)}.`;
  seat.match.at("/last").set(rolled).catch((cause) => say(failure(cause)));
};

// Without a document its room makes place for another one, once everybody has left. The end is
// refused where somebody came meanwhile.
async function leaveMatch(match, players) {
  const isLast = Object.keys(players.people).every((id) => id === players.id);
  await (isLast ? match.end() : players.leave()).catch(() => players.leave());
  match.close();
}
