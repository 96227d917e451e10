// A JSON value as a tree, which is gone through by keys.
"use strict";

const SHOWN = 200; // of a container; the others are counted

class Tree {
  #list;
  #open = new Set([""]);
  #here = "";
  #value;
  #flashing = [];

  constructor(list) {
    this.#list = list;
    list.addEventListener("keydown", (event) => this.#key(event));
    list.addEventListener("click", ({ target }) => this.#click(target.closest(".row")));
  }

  /** Shows a value, in which these pointers lead to what has changed. */
  show(value, changed = []) {
    this.#value = value;
    this.#flashing = changed;
    this.#draw();
    this.#flashing = [];
  }

  #draw() {
    const { scrollTop } = this.#list;
    this.#list.replaceChildren(this.#item("", "", this.#value));
    this.#list.scrollTop = scrollTop;
    this.#go(this.#row(this.#here) ?? this.#rows[0]);
  }

  #item(name, path, value) {
    const item = document.createElement("li");
    const kids = isContainer(value) ? Object.entries(value) : null;
    const isOpen = kids !== null && this.#open.has(path);
    item.setAttribute("role", "treeitem");
    item.id = `at${path}`;
    if (kids !== null) item.setAttribute("aria-expanded", String(isOpen));
    item.append(this.#line(name, path, value, kids === null ? " " : isOpen ? "▾" : "▸"));
    if (isOpen) item.append(this.#group(path, kids));
    return item;
  }

  #group(path, kids) {
    const group = document.createElement("ul");
    group.setAttribute("role", "group");
    const item = ([name, kid]) => this.#item(name, path + relay.pointer(name), kid);
    group.append(...kids.slice(0, SHOWN).map(item));
    if (kids.length > SHOWN) group.append(part("li", "size", `and ${kids.length - SHOWN} more`));
    return group;
  }

  #line(name, path, value, sign) {
    const row = part("div", "row", "");
    row.dataset.path = path;
    const title = path === "" ? "document" : name;
    row.append(part("span", "sign", sign), part("span", "name", title), ": ", shownValue(value));
    // What changed within what is closed is told where it is closed.
    const isIn = (changed) => changed.startsWith(`${path}/`) && !this.#open.has(path);
    const isWithin = (changed) => changed === path || isIn(changed);
    row.classList.toggle("flash", this.#flashing.some(isWithin));
    return row;
  }

  get #rows() {
    return [...this.#list.querySelectorAll(".row")];
  }

  #row(path) {
    return this.#rows.find((row) => row.dataset.path === path);
  }

  #go(row) {
    if (row === undefined || row === null) return;
    for (const other of this.#rows) other.classList.toggle("here", other === row);
    this.#here = row.dataset.path;
    this.#list.setAttribute("aria-activedescendant", row.parentElement.id);
  }

  #key(event) {
    const rows = this.#rows;
    const at = rows.findIndex((row) => row.dataset.path === this.#here);
    const holder = this.#here.slice(0, this.#here.lastIndexOf("/"));
    const isOpen = this.#open.has(this.#here);
    const leave = () => (this.#here === "" ? undefined : this.#go(this.#row(holder)));
    const acts = {
      ArrowDown: () => this.#go(rows[at + 1]),
      ArrowUp: () => this.#go(rows[at - 1]),
      Home: () => this.#go(rows[0]),
      End: () => this.#go(rows.at(-1)),
      ArrowRight: () => (isOpen ? this.#go(rows[at + 1]) : this.#turn(true)),
      ArrowLeft: () => (isOpen ? this.#turn(false) : leave()),
      Enter: () => this.#turn(!isOpen),
    };
    if (!Object.hasOwn(acts, event.key)) return;
    event.preventDefault();
    acts[event.key]();
    this.#row(this.#here)?.scrollIntoView({ block: "nearest" });
  }

  #click(row) {
    if (row === null) return;
    this.#go(row);
    this.#turn(!this.#open.has(this.#here));
  }

  #turn(isOpen) {
    if (isOpen) this.#open.add(this.#here);
    else this.#open.delete(this.#here);
    this.#draw();
  }
}

function isContainer(value) {
  return typeof value === "object" && value !== null;
}

function part(kind, name, words) {
  return Object.assign(document.createElement(kind), { className: name, textContent: words });
}

function shownValue(value) {
  if (value === undefined) return part("span", "size", "not there yet");
  const kind = typeof value === "string" ? "text" : "";
  if (!isContainer(value)) return part("span", kind, JSON.stringify(value));
  const size = Object.keys(value).length;
  return part("span", "size", Array.isArray(value) ? `list of ${size}` : `object of ${size}`);
}
