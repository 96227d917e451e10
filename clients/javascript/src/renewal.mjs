// Tells who is here to a relay that knows no wills: each entry is renewed while its client is here,
// and whoever sees that one was not renewed takes it away. Each renewal is an edit: a revision,
// told to every watcher of the object.

// A page in the background has its timers run once a minute: an entry outlives two such renewals.
const DEFAULTS = { every: 20_000, gone: 150_000 };

export class Renewal {
  #options;
  #renew;
  #beat = 0;
  /** @type {ReturnType<typeof setInterval> | undefined} */
  #timer;
  /** @type {Map<string, { beat: unknown, since: number }>} */
  #seen = new Map(); // since when each entry has not been renewed, by this client's clock

  /** @param {{ every?: number, gone?: number }} options @param {() => void} renew */
  constructor(options, renew) {
    this.#options = { ...DEFAULTS, ...options };
    this.#renew = renew;
  }

  begin() {
    this.#timer ??= setInterval(this.#renew, this.#options.every);
  }

  end() {
    clearInterval(this.#timer);
    this.#timer = undefined;
  }

  /** The members that an entry has besides. */
  get mark() {
    if (this.#timer === undefined) return {};
    this.#beat += 1;
    return { beat: this.#beat };
  }

  /**
   * Those that were not renewed for too long.
   * @param {Record<string, { beat?: unknown }>} others by their ids
   * @returns {string[]}
   */
  gone(others) {
    if (this.#timer === undefined) return [];
    const now = Date.now();
    this.#seen = new Map(Object.entries(others).map(([id, { beat }]) => {
      const before = this.#seen.get(id);
      return [id, before !== undefined && before.beat === beat ? before : { beat, since: now }];
    }));
    const isGone = (/** @type {{ since: number }} */ { since }) =>
      now - since >= this.#options.gone;
    return [...this.#seen].flatMap(([id, seen]) => (isGone(seen) ? [id] : []));
  }
}
