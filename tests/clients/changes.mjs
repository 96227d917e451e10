// Random documents, random changes of them by functions, and random edits of somebody else.

/** Numbers that a seed decides: `random(n)` is below `n`. */
export function chance(seed) {
  let state = seed * 2654435761;
  return (below) => {
    state = (Math.imul(state ^ (state >>> 15), 2246822519) + 0x9e3779b9) >>> 0;
    return Math.floor(((state ^ (state >>> 13)) >>> 0) / 2 ** 32 * below);
  };
}

const pick = (random, list) => list[random(list.length)];
const SCALARS = [0, 1, 2, "a", "b", "", null, true];
const NAMES = ["a", "b", "c", "k/~"];

export function randomValue(random, depth) {
  const kind = depth > 0 ? random(4) : 0;
  if (kind < 2) return pick(random, SCALARS);
  const size = random(5);
  if (kind === 2) return Array.from({ length: size }, () => randomValue(random, depth - 1));
  return Object.fromEntries(
    NAMES.slice(0, size).map((name) => [name, randomValue(random, depth - 1)]),
  );
}

export function randomDocument(random) {
  const list = (depth) => Array.from({ length: random(6) }, () => randomValue(random, depth));
  return {
    list: list(0),
    cards: list(2),
    people: randomObject(random),
    title: pick(random, SCALARS),
  };
}

function randomObject(random) {
  return Object.fromEntries(
    NAMES.filter(() => random(2) === 0).map((name) => [name, randomValue(random, 2)]),
  );
}

/** A function that changes a document, the same way each time for the same document. */
export function randomChange(random) {
  const steps = Array.from({ length: 1 + random(4) }, () => {
    const [name, step] = pick(random, Object.entries(STEPS));
    const numbers = Array.from({ length: 4 }, () => random(1000));
    const value = JSON.stringify(randomValue(random, 2));
    return { name, step, numbers, value };
  });
  const make = (document) => {
    for (const { step, numbers, value } of steps) {
      const [a, b, c, d] = numbers;
      // Looked for where a step needs it: what is looked at is guarded.
      step(document, {
        get container() {
          return within(document, a);
        },
        get list() {
          return listOf(document, b);
        },
        c,
        d,
        value: JSON.parse(value),
      });
    }
  };
  make.words = JSON.stringify(steps.map(({ name, numbers, value }) => [name, numbers, value]));
  return make;
}

const isContainer = (value) => typeof value === "object" && value !== null;

/** A container of the document, by a number: found as an application finds one, by looking. */
function within(document, number) {
  let here = document;
  for (let left = number; left > 0; left = Math.floor(left / 5)) {
    const keys = Array.isArray(here) ? [0, 1, 2] : NAMES.concat("cards", "people");
    const next = here[keys[left % keys.length]];
    if (!isContainer(next)) break;
    here = next;
  }
  return here;
}

function listOf(document, number) {
  const looks = [
    () => document.list,
    () => document.cards,
    () => document.people?.a,
    () => document.cards?.[0],
  ];
  const list = looks[number % 4]();
  return Array.isArray(list) ? list : Array.isArray(document.list) ? document.list : [];
}

const STEPS = {
  push: (_, { list, value }) => void list.push(value),
  unshift: (_, { list, value }) => void list.unshift(value),
  pop: (_, { list }) => void list.pop(),
  shift: (_, { list }) => void list.shift(),
  splice: (_, { list, c, d, value }) =>
    void list.splice(c % 4, d % 3, ...(d % 2 === 0 ? [value] : [])),
  cut: (_, { list, c }) => void list.splice(-(c % 3)),
  reverse: (_, { list }) => void list.reverse(),
  sort: (_, { list }) => void list.sort((x, y) => (JSON.stringify(x) < JSON.stringify(y) ? -1 : 1)),
  setAt: (_, { list, c, value }) => void (c % 6 < list.length && (list[c % 6] = value)),
  length: (_, { list, c }) => void (list.length = Math.min(list.length, c % 4)),
  rotate: (_, { list }) => void (list.length > 0 && list.push(list.shift())),
  filter: (document) =>
    void (Array.isArray(document.list) && (document.list = document.list.filter((x) => x !== 1))),
  map: (document) =>
    void (
      Array.isArray(document.list) &&
      (document.list = document.list.map((x) => (x === "a" ? "A" : x)))
    ),
  blind: (document, { value }) => void (document.list = [value, "a"]),
  within: (document, { c, value }) => void (document.made ??= { list: [] }).list.push(c, value),
  set: (_, { container, c, value }) =>
    void (!Array.isArray(container) && (container[NAMES[c % 4]] = value)),
  setDefault: (_, { container, c, value }) =>
    void (!Array.isArray(container) && (container[NAMES[c % 4]] ??= value)),
  drop: (_, { container, c }) => void (!Array.isArray(container) && delete container[NAMES[c % 4]]),
  add: (document) => void (typeof document.title === "number" && (document.title += 1)),
  same: (document) => void (document.title = "a"),
  count: (document) => void (document.count = Object.keys(document.people ?? {}).length),
  each: (_, { list }) =>
    list.forEach((x) => isContainer(x) && !Array.isArray(x) && (x.seen = true)),
  find(_, { list, c }) {
    const at = list.findIndex((x) => x === SCALARS[c % 8]);
    if (at >= 0) list.splice(at, 1);
  },
  some: (document, { list, c }) => void (list.includes(SCALARS[c % 8]) && (document.found = c)),
  moveAcross: (document, { list }) =>
    void (
      Array.isArray(document.list) && list.length > 0 && document.list.push(...list.splice(0, 1))
    ),
  moveMember(document, { c }) {
    const people = document.people;
    if (!isContainer(people) || Array.isArray(people) || !(NAMES[c % 4] in people)) return;
    const moved = people[NAMES[c % 4]];
    delete people[NAMES[c % 4]];
    document.moved = moved;
  },
  rename(_, { container, c, d }) {
    if (Array.isArray(container) || !Object.hasOwn(container, NAMES[c % 4])) return;
    const moved = container[NAMES[c % 4]];
    delete container[NAMES[c % 4]];
    container[NAMES[d % 4]] = moved;
  },
  swap(_, { list, c, d }) {
    if (list.length < 2) return;
    const [one, other] = [c % list.length, d % list.length];
    const before = list[one];
    list[one] = list[other];
    list[other] = before;
  },
  copy: (document, { list }) =>
    void (
      Array.isArray(document.list) &&
      list.length > 0 &&
      (document.copied = JSON.parse(JSON.stringify(list[0])))
    ),
  wrap: (document, { list }) => void (document.wrapped = { first: list.slice(0, 1) }),
};

/**
 * The change that somebody else makes to a document: an operation that fits. It makes no list of an
 * object and no object of a list, which no test of a guard says.
 */
export function randomOther(random, document) {
  const places = [...paths(document, "")];
  const [path, value] = pick(random, places);
  const made = randomValue(random, 1);
  const isAlike =
    !isContainer(made) || !isContainer(value) || Array.isArray(made) === Array.isArray(value);
  if (random(3) === 0 && isAlike) return [{ op: "replace", path, value: made }];
  if (Array.isArray(value)) {
    return [{ op: "add", path: `${path}/${random(value.length + 1)}`, value: made }];
  }
  if (isContainer(value)) {
    const token = pick(random, NAMES).replaceAll("~", "~0").replaceAll("/", "~1");
    return [{ op: "add", path: `${path}/${token}`, value: made }];
  }
  return [
    { op: path === "" ? "replace" : "remove", path, ...(path === "" ? { value: made } : {}) },
  ];
}

function* paths(value, path) {
  if (path !== "") yield [path, value];
  if (!isContainer(value)) return;
  for (const [name, part] of Object.entries(value)) {
    yield* paths(part, `${path}/${name.replaceAll("~", "~0").replaceAll("/", "~1")}`);
  }
}

/**
 * A function that takes parts out of a document, changes some of them, and puts most of them in at
 * other places, which may be within one another.
 */
export function randomCarries(random, document) {
  const plain = structuredClone(document);
  const steps = [];
  for (let number = 1 + random(4); number > 0; number -= 1) {
    const full = containers(plain).filter((path) => Object.keys(at(plain, path)).length > 0);
    if (full.length === 0) break;
    const from = pick(random, full);
    const step = { from, name: pick(random, Object.keys(at(plain, from))), number };
    const part = takeOut(plain, step);
    step.to = random(5) === 0 ? null : pick(random, containers(plain));
    Object.assign(step, { place: random(4), isMarked: [random(3) === 0, random(3) === 0] });
    putIn(plain, part, step);
    steps.push(step);
  }
  const make = (document) => {
    for (const step of steps) putIn(document, takeOut(document, step), step);
  };
  make.words = JSON.stringify(steps);
  return make;
}

/** The paths of the containers in a value. */
function containers(value, path = []) {
  if (!isContainer(value)) return [];
  const within = Object.entries(value).flatMap(([name, part]) => containers(part, [...path, name]));
  return [path, ...within];
}

const at = (document, path) => path.reduce((part, name) => part[name], document);

function takeOut(document, { from, name }) {
  const holder = at(document, from);
  if (Array.isArray(holder)) return holder.splice(Number(name), 1)[0];
  const part = holder[name];
  delete holder[name];
  return part;
}

function putIn(document, part, { to, place, isMarked: [before, after], number }) {
  if (before) mark(part, number);
  if (to !== null) {
    const holder = at(document, to);
    if (Array.isArray(holder)) holder.splice(Math.min(place, holder.length), 0, part);
    else holder[NAMES[place]] = part;
  }
  if (after) mark(part, number);
}

function mark(part, number) {
  if (Array.isArray(part)) part.push(number);
  else if (isContainer(part)) part.marked = number;
}
