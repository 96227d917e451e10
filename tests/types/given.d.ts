// Declares what snippets of the documents may use without saying where it comes from: what
// tests/snippets/play.mjs makes.
interface Shopping {
  cards: string[];
  title: string;
  count: number;
  here: Record<string, { name: string }>;
}

/** Of a room of its own. */
declare const url: string;
/** Of that room, with the view `["/cards", "/title", "/count"]`. */
declare const board: import("@bolsteregret/relay").Board<Shopping, ["/cards", "/title", "/count"]>;
/** Shows something. */
declare function show(...things: unknown[]): void;
