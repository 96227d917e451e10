// Types of relay.js, which as a script makes the global `relay`, and of relay.mjs.
export as namespace relay;

/** A JSON Pointer (RFC 6901) into the document; `""` is the whole. */
export type Pointer = string;

type Escaped<T extends string> = T extends `${infer A}~${infer B}`
  ? `${Escaped<A>}~0${Escaped<B>}`
  : T extends `${infer A}/${infer B}`
  ? `${Escaped<A>}~1${Escaped<B>}`
  : T;

/** The pointer of keys, as a type. */
export type PointerOf<K extends readonly (string | number)[]> = K extends readonly [
  infer First extends string | number,
  ...infer Rest extends readonly (string | number)[]
]
  ? `/${Escaped<`${First}`>}${PointerOf<Rest>}`
  : K extends readonly []
  ? ""
  : string;

/** The pointer of keys, names of members and indexes: `pointer("cards", 0)` is `/cards/0`. */
export function pointer<K extends readonly (string | number)[]>(...keys: K): PointerOf<K>;

/** A JSON value, as the relay tells it. */
export type Json =
  | null
  | boolean
  | number
  | string
  | readonly Json[]
  | { readonly [name: string]: Json };

/**
 * A value that is written: JSON, also of an interface or a class. Numbers are whole and within
 * 2^53; what JSON cannot say is refused by a `TypeError` that names its path.
 */
export type Writable = null | boolean | number | string | readonly Writable[] | object;

/**
 * Names what a slot shows: the value to which a pointer leads, or how many elements or members that
 * has.
 */
export type Shown = Pointer | { readonly size: Pointer };

/** The pointers whose slots are watched, at most 16. */
export type View = readonly Shown[];

/**
 * The value that stands there: `[value]`, or `[]` where the pointer leads to nothing; of a size
 * `[number]`, or `[]` where there is no list and no object.
 */
export type Slot<T = Json> = readonly [value?: T];

type Unescaped<T extends string> = T extends `${infer A}~1${infer B}`
  ? `${Unescaped<A>}/${Unescaped<B>}`
  : T extends `${infer A}~0${infer B}`
    ? `${Unescaped<A>}~${Unescaped<B>}`
    : T;
type Member<D, T extends string> = D extends readonly (infer E)[]
  ? E
  : T extends keyof D
    ? NonNullable<D[T]>
    : string extends keyof D
      ? D[keyof D]
      : D extends null | undefined
        ? never
        : unknown;

/** The type of what stands at a pointer into a document of the type `D`. */
export type At<D, P extends string> = string extends P
  ? any
  : P extends ""
  ? D
  : P extends `/${infer T}/${infer Rest}`
  ? At<Member<D, Unescaped<T>>, `/${Rest}`>
  : P extends `/${infer T}`
  ? Member<D, Unescaped<T>>
  : never;

/** The type of what a slot shows. */
export type ValueOf<D, S extends Shown> = S extends string
  ? Json extends D
    ? any
    : At<D, S>
  : number;

/**
 * A value that is shown. It is frozen, as deep as it goes: an application may keep it, and copies
 * it to change it, as `[...cards].sort(..)`.
 */
export type Frozen<T> = unknown extends T
  ? T
  : T extends object
    ? { readonly [K in keyof T]: Frozen<T[K]> }
    : T;

/** The types of a view's slots. */
export type SlotsOf<D, V extends readonly Shown[]> = {
  readonly [K in keyof V]: V[K] extends Shown ? Slot<Frozen<ValueOf<D, V[K]>>> : never;
};

/** An operation of a JSON Patch (RFC 6902). */
export type Operation =
  | { readonly op: "add" | "replace" | "test"; readonly path: Pointer; readonly value: Writable }
  | { readonly op: "remove"; readonly path: Pointer }
  | { readonly op: "move" | "copy"; readonly from: Pointer; readonly path: Pointer };

/**
 * - `connecting`: a connection is being made, or its slots are awaited.
 * - `open`: the slots are those of the relay, but for what is on its way.
 * - `waiting`: the connection was lost, or could not be had; the next try comes after a while. The
 *   slots stay as they were.
 * - `closed`: by `close`, since the relay refused the first view or what `begin` has, or since
 *   there is no room at the address.
 */
export type State = "connecting" | "open" | "waiting" | "closed";

export interface Change<Slots = readonly Slot[]> {
  /**
   * The slots that are shown: what the relay showed, with the optimistic edits that wait laid over
   * it. It is frozen, and no later change writes to it.
   */
  readonly slots: Slots;
  /** The slots as the relay showed them. */
  readonly confirmed: Slots;
  /** The revision of `confirmed`. */
  readonly rev: number;
  /** The number of optimistic edits that wait. */
  readonly pending: number;
  /**
   * The patch that led to `confirmed` from the one before, with slot `k`'s value at `/k/0`; null
   * where that came anew, or where it is as before.
   */
  readonly patch: readonly Operation[] | null;
}

/** An optimistic edit that is shown no more, since it was refused, or its answer was lost. */
export interface TakenBack {
  readonly patch: readonly Operation[];
  readonly cause: Error;
}

/** A store that keeps edits that wait beyond a page, as `localStorage` and `sessionStorage` do. */
export interface Store {
  getItem(key: string): string | null;
  setItem(key: string, text: string): void;
  removeItem(key: string): void;
}

export interface Options<
  V extends readonly Shown[] = readonly Shown[],
  Slots = readonly Slot<any>[],
> {
  /** The slots that are to be shown, at most 16. */
  view: readonly [...V];
  /**
   * The document that the room is to begin with. Each connection writes it first, before any edit
   * that waits, if the document is `null`: in a new room, and after a restart of the relay. It is
   * no edit for `undo`. If it is refused, as `too-heavy`, the board is closed.
   */
  begin?: Writable;
  /**
   * Enters the room only to watch it, by its address with `/watch` behind the name. Each edit fails
   * at once, as `read-only`, and nothing is sent: so do `change`, `end`, `will`, `undo` and `redo`.
   * `begin` is not written. If there is no room of the name yet, the relay answers 404, and the
   * board is `waiting` until there is one.
   */
  readOnly?: boolean;
  /** Told after each change of the slots, and of how many edits wait. */
  onChange?: (change: Change<Slots>) => void;
  /**
   * Told of each new state: with `waiting` and a `HandshakeFailed`, where no connection could be
   * had; with `closed` and its cause, if there is one. Where it is not given, a warning of the
   * console says why there is no connection.
   */
  onState?: (state: State, cause: Error | null) => void;
  /**
   * Told of each optimistic edit that is taken back. The promise of such an edit need not be looked
   * at then.
   */
  onTakenBack?: (told: TakenBack) => void;
  /**
   * The edits that may wait for the connection while it is lost. `all`: every edit. `guarded`: only
   * one with a `base`, or with a `test` in front; others are `Refused` at once, as `away`. `all` if
   * nothing is said.
   */
  queue?: "guarded" | "all";
  /**
   * The store in which edits that were not sent yet are kept, so that the next page with the same
   * key sends them. None, if nothing is said. If something else stands there, nothing is sent.
   */
  storage?: Store;
  /** The key in `storage`, of one page at a time. The address, if nothing is said. */
  storageKey?: string;
  /**
   * A pointer to an object of the document, as `begin` makes it, in which this client keeps a
   * counter for its edits that are `once`.
   */
  once?: Pointer;
  /**
   * The class of the sockets; the global one, if nothing is said. Node's own sends no name and
   * password of an address (docs/CLIENTS.md, "Behind a password").
   */
  WebSocket?: new (url: string) => unknown;
  /**
   * The milliseconds that the first try after a loss waits at most; each further one waits up to
   * twice as long. 200 if nothing is said.
   */
  firstWait?: number;
  /** The milliseconds that a try waits at most. 10,000 if nothing is said. */
  longestWait?: number;
  /**
   * After how many milliseconds without a message the relay is asked for one. 20,000 if nothing is
   * said.
   */
  quiet?: number;
  /**
   * For how many milliseconds the oldest request may have no answer, before the connection is given
   * up. 10,000 if nothing is said. A snapshot may take six times as long. Each connection in a row
   * that is given up doubles both, up to eightfold, until slots come.
   */
  patience?: number;
}

export interface EditOptions {
  /** The revision at which alone it is to be done, as `rev` of the slots from which it was made. */
  base?: number | null;
  /**
   * The epoch of which the base is a revision. If nothing is said, that of the slots. To be kept
   * beside a base that is used later.
   */
  epoch?: number | null;
  /** True if it shows at once. */
  optimistic?: boolean;
  /** `false` keeps it out of what `undo` takes back. */
  undo?: boolean;
  /**
   * True if it tests and raises a counter of this client, at the pointer that `connect` was given
   * as `once`. Then it is sent again where its answer was lost, and is never done twice. It gives
   * its revision, or a later one where the answer was lost. One is on its way at a time: what was
   * asked for behind it waits. It has 62 operations of its own at most, and no `base`.
   */
  once?: boolean;
}

/** A value that may be changed in place. */
export type Draft<T> = T extends readonly (infer E)[]
  ? Draft<E>[]
  : T extends object
  ? { -readonly [K in keyof T]: Draft<T[K]> }
  : T;

export interface ChangeOptions {
  /**
   * The values that have to be as they were seen. `values`: what the function read, and each
   * element that it addressed, by tests in front; by the revision, where they would be too many or
   * too large. `base`: the whole document. `none`: nothing. `values` if nothing is said.
   */
  guard?: "values" | "base" | "none";
  /** The number of times that the function is called at most. 20 if nothing is said. */
  tries?: number;
  /** True if it shows at once. It does, if nothing is said. */
  optimistic?: boolean;
  /** `false` keeps it out of what `undo` takes back. */
  undo?: boolean;
  /** As of an edit; one that is guarded by the revision is done once by that. */
  once?: boolean;
}

/** The elements of a list, told apart by a member, wherever they stand. */
export interface Keyed<E> {
  /** The element with a key; undefined where there is none. */
  get(key: Writable): Frozen<E> | undefined;
  /** The index at which it stands; -1 where it does not. */
  indexOf(key: Writable): number;
  /** Fails with `Refused`, as `missing`, where no element has the key; so do the others. */
  remove(key: Writable, options?: ChangeOptions): Promise<number>;
  /** In front of the element with another key; to the end, where that is null. */
  move(key: Writable, before: Writable | null, options?: ChangeOptions): Promise<number>;
  /**
   * Puts in a new one, in front of the element with a key; at the end, where that is null. Fails
   * with `Refused`, as `key`, where it has no key, or that of an element that is shown. Two clients
   * that put in one key at once both may; `guard: "base"` prevents that.
   */
  insert(value: E | Frozen<E>, before: Writable | null, options?: ChangeOptions): Promise<number>;
  /** Changes a draft of it. */
  change(
    key: Writable,
    make: (element: Draft<E>) => void,
    options?: ChangeOptions,
  ): Promise<number>;
}

type ElementOf<T> = T extends readonly (infer E)[] ? E : any;

export interface SetOptions extends EditOptions {
  /**
   * True if objects that are missing around the place are made, in the same patch. Then the edit
   * has a base, and is made anew where others were faster.
   */
  parents?: boolean;
}

/**
 * The value at a pointer that the view shows, by itself or as a part of another one: with the view
 * `["/cards"]` also `/cards/0`. Reading and writing throw a `RangeError` if the view does not show
 * it. An index names another element once somebody inserted or removed before it.
 */
export interface Place<T> {
  /** The value that stands there; undefined where nothing does, or before the first slots. */
  readonly value: Frozen<T> | undefined;
  /** The value that stands there as the relay showed it. */
  readonly confirmed: Frozen<T> | undefined;
  /** Tells of each other value. Gives its end. */
  subscribe(listener: (value: Frozen<T> | undefined) => void): () => void;
  /**
   * Writes another value, which shows at once: replaces what stands there, or adds a member, or an
   * element at the end, where nothing does. One value of a place is on its way at a time: of those
   * that are set meanwhile the newest is sent, and the others end as it does, unless something else
   * is asked for in between. Fails as `edit`, and throws before the first slots.
   */
  set(value: T | Frozen<T>, options?: SetOptions): Promise<number>;
  /**
   * Writes the value that `change` makes of the one that stands there, and does it again until
   * nobody was faster; where it makes `undefined`, nothing. Fails as `edit`; with `stale` after
   * that many `tries`, 20 if nothing is said.
   */
  update(
    change: (value: Frozen<T> | undefined) => T | Frozen<T> | undefined,
    options?: { tries?: number; undo?: boolean },
  ): Promise<number>;
  /** Adds elements to the end of a list. It is a `change`, as those below are. */
  push(...values: (ElementOf<T> | Frozen<ElementOf<T>>)[]): Promise<number>;
  /**
   * Puts an element in front of the one that is shown at an index, or at the end, by the index
   * behind the last. Where that one has moved by then it is put in front of it there; it is
   * `Refused`, as `changed`, where it is gone. So are those below, which follow their elements by
   * their values.
   */
  insert(
    at: number,
    value: ElementOf<T> | Frozen<ElementOf<T>>,
    options?: ChangeOptions,
  ): Promise<number>;
  remove(at: number, options?: ChangeOptions): Promise<number>;
  /** Moves an element to where another one is shown. */
  move(from: number, to: number, options?: ChangeOptions): Promise<number>;
  /** The elements by a member that tells them apart, as an `id`. */
  byKey(name: string): Keyed<ElementOf<T>>;
}

export interface Board<D = Json, V extends readonly Shown[] = readonly Shown[]> {
  /** The view whose slots these are. */
  readonly view: readonly Shown[];
  /**
   * The slots that are shown: what the relay showed, with the optimistic edits that wait laid over
   * it. Null before the first snapshot.
   */
  readonly slots: SlotsOf<D, V> | null;
  /** The slots as the relay showed them. Null before the first snapshot. */
  readonly confirmed: SlotsOf<D, V> | null;
  /** The revision of `confirmed`; null before the first snapshot. */
  readonly rev: number | null;
  /** The epoch of which it is; null before the first snapshot. */
  readonly epoch: number | null;
  /** The number of optimistic edits that wait. */
  readonly pending: number;
  readonly state: State;
  /**
   * The first slots. Fails with `Refused` where the view or the document of `begin` is refused, and
   * with `Closed`.
   */
  readonly ready: Promise<SlotsOf<D, V>>;
  /** Tells a listener after each change. Gives its end. */
  subscribe(listener: (change: Change<SlotsOf<D, V>>) => void): () => void;
  /**
   * Returns what stands at a pointer. Equal pointers give the same place, as long as it is held or
   * listened to.
   */
  at<P extends Shown>(shown: P): Place<ValueOf<D, P>>;
  /**
   * Shows another view from now on. Gives its slots. Fails with `Refused`, and the view before
   * stays; with `Superseded`, where another view was asked for and its slots came in their place;
   * and with `Closed`.
   */
  watch<W extends readonly Shown[]>(view: readonly [...W]): Promise<SlotsOf<D, W>>;
  /**
   * The slots, once all that was said so far is answered and shown: this client's edits, and all
   * that was done before the relay heard of this. `rev` is the room's revision then. It costs a
   * snapshot. It fails with `Closed`, and with no refusal.
   */
  sync(): Promise<SlotsOf<D, V>>;
  /**
   * Edits the document, all of it or nothing. Gives the new revision, which the slots may still be
   * on their way to.
   *
   * Fails with `Refused`, where nothing changed; with `Unknown`, where the connection was lost
   * before the answer; with `Closed`; and with a `TypeError`, where a value is none that the relay
   * takes, or an option has a name that is not known. A failure at which nobody looks is an
   * unhandled rejection, but for one of which `onTakenBack` was told. At most 31 requests are on
   * their way at once; the others wait here, also for a connection, and are sent in order.
   *
   * With `optimistic` it shows at once, as far as the slots tell what it does. A patch is done
   * whole or not at all: where an operation does not fit what is shown, nothing of it is. Where it
   * is refused, or its answer is lost, it is taken back, and `onTakenBack` is told.
   *
   * With a `base` it is done only where the room is at that revision, and gives the next one. Else
   * it is refused, as `stale`: what was seen may have changed, or anything else in the document.
   * Then `sync()` gives slots of the room's revision; `rev` by itself stays behind it where an edit
   * touches none of the slots.
   *
   * Where the answer of an edit with a `base` was lost, it is sent again once the client is back,
   * and is never done twice. It fails with `Unknown` where it is `stale` then, with the room's
   * revision as `rev`: it was done the first time, or another edit was faster and it never will be.
   * Also where the relay was restarted in between, where the board is closed, and after five lost
   * connections. One that was not sent yet when the relay was restarted is refused, as `stale`,
   * without being sent.
   */
  edit(patch: readonly Operation[], options?: EditOptions): Promise<number>;
  /**
   * Changes a draft of what is shown, as any value: by assignments, `delete` and the methods of
   * lists. The least patch that does it is sent, with moves where a value moved; nothing is, where
   * nothing was changed. It shows at once.
   *
   * Where it is refused since what the function read or addressed is another by then (`guard`), the
   * function is called again, on what is shown then: so it looks for what it means, and takes no
   * index from outside. It returns nothing, awaits nothing and keeps nothing of the draft; `push`
   * and `unshift` give no length. Before the first slots it waits for them. Gives the new revision,
   * and fails as `edit`; as it was refused last, after so many `tries`.
   */
  change(
    make: (draft: Json extends D ? any : Draft<D>) => void,
    options?: ChangeOptions,
  ): Promise<number>;
  /**
   * Ends the room: replaces the whole document by `null`. It is an edit with `rev` as its base, so
   * it is refused, as `stale`, if anybody edited since. Before the first slots it waits for them.
   * Once everybody has left, the room makes place for a new name if the relay has no other.
   */
  end(): Promise<number>;
  /**
   * Leaves a will: a patch that the relay does when this session ends, however it ends, by `close`,
   * by a page that is closed or killed, or by a lost connection. It is done as an edit without a
   * base that nobody is answered: where it is refused, nothing happens. A later will replaces it,
   * and `[]` withdraws it. Each new connection leaves it again, before the edits that wait. The
   * session that was lost has done its own by then, or does it once the relay finds out: so guard
   * by a `test` what a later session may have written anew.
   *
   * Comes back when the relay has it; without a connection, once there is one. Fails with
   * `Refused`, and the will before stays: as `shape` by a relay that knows no wills, as `too-heavy`
   * where it weighs more than 65,536; and with `Closed`.
   *
   * A session has one will. What boards that share a connection leave, and `presence`, is put
   * together with it, and done whole or not at all.
   */
  will(patch: readonly Operation[]): Promise<void>;
  /**
   * Takes back the newest edit of this board that was done, and gives the revision of that; null
   * where there is none. It waits until all edits before it are shown. Refused, as `changed`, where
   * somebody changed what the edit did; then the edit before it is the newest. Edits of what the
   * slots did not show are not taken back.
   */
  undo(): Promise<number | null>;
  /** Does again what `undo` took back last, until another edit is made. */
  redo(): Promise<number | null>;
  /** The number of edits that `undo` can take back. */
  readonly undoable: number;
  /** The number of edits that `redo` can do again. */
  readonly redoable: number;
  /** Leaves the room, and does not come back. */
  close(): void;
}

/**
 * Connects to a room, as `ws://127.0.0.1:8080/rooms/NAME`, and comes back to it whenever the
 * connection is lost. Fails with a `RangeError` where the name is none of a room, and with a
 * `TypeError` where an option has a name that is not known, as each call does that takes options.
 *
 * `connect<Document>(url, { view })` types what `at` gives;
 * `connect<Document, typeof view>(url, { view })` the slots as well, of a
 * `const view = [...] as const`.
 */
export function connect<V extends readonly Shown[]>(
  url: string,
  options: Options<V, SlotsOf<Json, V>>,
): Board<Json, V>;
export function connect<D, V extends readonly Shown[] = readonly Shown[]>(
  url: string,
  options: Options<V, SlotsOf<D, V>>,
): Board<D, V>;

/**
 * A board of one part of a page, which shares its connection with others. Its edits are those of
 * the connection: `pending`, `undo` and `redo` are of all boards that share it. A change has no
 * `patch`. Closed, it leaves the connection to the others.
 */
export interface SharedBoard<D = Json, V extends readonly Shown[] = readonly Shown[]>
  extends Omit<Board<D, V>, "watch"> {}

export interface Room<D = Json> {
  /**
   * Shows pointers, over the connection of the other views where 16 slots are enough for all, and
   * else over another one.
   */
  view<V extends readonly Shown[]>(view: readonly [...V]): SharedBoard<D, V>;
  /** The number of connections that the views take. */
  readonly connections: number;
  close(): void;
}

/**
 * Several views of a room over as few connections as they need. `onConnections` is told how many
 * they are, with each new one.
 */
export function room<D = Json>(
  url: string,
  options?: Omit<Options, "view" | "onChange"> & { onConnections?: (count: number) => void },
): Room<D>;

/**
 * The entry that is written of somebody: `session` names the session that wrote it, and `beat`
 * counts its renewals where the relay knows no wills.
 */
export type Present<E extends object> = E & { readonly session: string; readonly beat?: number };

export interface Presence<E extends object> {
  readonly id: string;
  /** The entries of all who are here, by their ids. What is no object is left out. */
  readonly people: Readonly<Record<string, Frozen<Present<E>>>>;
  /**
   * Resolves when the entry is written for the first time. Fails where the board is closed before,
   * only watches, or does not show the pointer.
   */
  readonly ready: Promise<void>;
  /** Tells who is here with each change. Gives its end. */
  subscribe(listener: (people: Presence<E>["people"]) => void): () => void;
  /**
   * Shows another entry of this client from now on; without a connection, once it is there again.
   * The promise need not be looked at.
   */
  set(entry: E): Promise<void>;
  /** Takes this client's entry away. */
  leave(): Promise<void>;
}

/**
 * Keeps an entry of this client in the object at a pointer of the board's view: makes the object if
 * there is none, leaves a will that takes the entry away, and writes it each time that the board is
 * `open`, or that somebody else took it away. Where it is refused, as in a room that has no
 * document yet, it is tried again when the document changes. The entry goes when the relay finds
 * that the session has ended: of a machine that lost its network that may take as long as the
 * system or a proxy keeps the connection.
 *
 * To a relay that knows no wills the entry is renewed every 20 seconds (`every`), and entries that
 * were not renewed for 150 seconds (`gone`), by this client's clock, are taken away. Each renewal
 * is an edit: a revision of the room, told to every watcher of the object, and it makes an edit
 * with an earlier `base` stale.
 */
export function presence<E extends object>(
  board: Board<any, any> | SharedBoard<any, any>,
  path: Pointer,
  entry: E,
  options?: { id?: string; every?: number; gone?: number },
): Presence<E>;

/**
 * A class of sockets that tells what the client says and hears, message by message, for whoever
 * looks for a mistake: `connect(url, { view, WebSocket: inspected(console.log) })`.
 */
export function inspected(
  tell: (told: { readonly way: "sent" | "heard"; readonly message: any }) => void,
  Sockets?: new (url: string) => unknown,
): new (url: string) => unknown;

/**
 * Returns what the slots of a view show when a patch is laid over them, as far as they tell it: of
 * the others each is as it was, and `known` is false. Fails where an operation is known not to fit.
 */
export function overlaid(
  view: readonly Shown[],
  slots: readonly Slot[],
  patch: readonly Operation[],
): { slots: Slot[]; known: boolean[] };

/**
 * The relay refused a request, and nothing changed by it. The message says what to do. As the
 * errors below, it is an instance of the class of its name in each copy of this package that a
 * program has.
 */
export class Refused extends Error {
  constructor(reply: { fault: string; at?: number | null; rev?: number | null }, advice?: string);
  /**
   * The word of the fault (docs/PROTOCOL.md, "Messages"). The client itself refuses with `too-long`
   * a text of more than 1,056,768 bytes, by which the connection would end; with `away` what may
   * not wait for the connection; with `changed` an undo of what somebody changed since; with `key`
   * an element that has no key of its own; and with `read-only` each edit of a board that only
   * watches.
   */
  readonly fault: string;
  /**
   * The place of the operation or pointer that is at fault, counted from 0; null where no single
   * one is.
   */
  readonly at: number | null;
  /** The revision at which the room is, where the fault is `stale`; else null. */
  readonly rev: number | null;
}

/** The connection was lost before the answer: the edit may have been done, or not. */
export class Unknown extends Error {
  constructor(rev?: number | null);
  /**
   * The room's revision, where the edit had a `base` and was sent again: it was done by then, or
   * never will be. The document tells which, if the edit left a mark there. Null: it may still be
   * done.
   */
  readonly rev: number | null;
}

/**
 * Another view was watched before the slots of this one came. It is no unhandled rejection where
 * nobody looks at it.
 */
export class Superseded extends Error {}

/** The board was closed before what was asked for was sent. */
export class Closed extends Error {}

/**
 * No connection could be had; the client goes on trying. A status of 404 ends the board, if no
 * connection was had before: the address is none of a room. But a board that is `readOnly` waits:
 * the room may begin later.
 */
export class HandshakeFailed extends Error {
  /** `refused` where something answers at the address, `unreachable` where nothing does. */
  readonly reason: "refused" | "unreachable";
  /**
   * The status of the answer, as 404 or 503, where the platform tells it; else null, and the
   * message names each that it may be. A browser tells no page a 403 (its origin may not enter)
   * from a 503, and a page of another origin nothing. Neither a browser nor Node tells these from
   * the 404 of a board that is `readOnly`.
   */
  readonly status: number | null;
}
