// The jobs of a player of the JavaScript client, in Node and in a page: `play(relay, url, view)`
// makes a function from what is asked to a promise of the answer. It may only watch.
"use strict";
globalThis.play = ({ connect }, url, view, readOnly = false) => {
  const handed = []; // slots that were handed out, and what they were then
  const onChange = ({ slots }) => {
    handed.push([slots, JSON.stringify(slots)]);
    handed.splice(0, handed.length - 20);
  };
  const waits = { firstWait: 10, longestWait: 100, readOnly, onState: () => {} };
  const board = connect(url, { view, once: "/once", onChange, ...waits });
  const counter = connect(url, { view: ["/count"], ...waits });
  const changer = connect(url, { view: ["/changed", "/log"], ...waits });

  // The outcome of an edit: on the revision of the board's slots if it is `based`, or `once`.
  async function answer(board, patch, how) {
    await board.ready;
    const { rev: base, epoch: of } = board;
    const ways = { based: [{ base }, { base, of }], once: [{ once: true }, { once: true }] };
    const [options, seen] = ways[how] ?? [{}, {}];
    return board.edit(patch, options).then(
      (rev) => ({ ...seen, rev }),
      ({ name, fault, rev, message }) => {
        const known = name === "Unknown" ? rev : null;
        return { ...seen, fails: name, fault: fault ?? message, known };
      },
    );
  }

  // What is shown over time, beside the edits that were asked for: each line says how the slots
  // were, which edits had been asked for, and which of those had been taken back.
  const lines = [];
  const asked = [];
  const showing = {
    board: null,
    line() {
      const { view, slots, confirmed, rev, epoch, pending } = this.board;
      const back = asked.flatMap(({ back }, k) => (back ? [k] : []));
      lines.push({ view, slots, confirmed, rev, epoch, pending, asked: asked.length, back });
    },
    connect() {
      const onTakenBack = ({ patch }) => {
        const k = asked.findIndex((edit) => edit.patch.at(-1).value === patch.at(-1).value);
        asked[k].back = true;
        // The last line was written without it.
        lines.at(-1)?.back.push(k);
      };
      this.board ??= connect(url, {
        view,
        onChange: () => this.line(),
        onTakenBack,
        WebSocket: Noting,
        ...waits,
      });
      return this.board;
    },
  };

  // The run of the relay to which the newest connection leads.
  let run = null;
  class Noting extends WebSocket {
    constructor(url) {
      super(url);
      this.addEventListener("message", ({ data }) => {
        const { kind, epoch } = JSON.parse(data);
        if (kind === "welcome") run = epoch;
      });
    }
  }

  const jobs = {
    // An edit that shows at once, whose last operation leaves a tag.
    show: async ({ patch, based }) => {
      const board = showing.connect();
      await board.ready;
      const edit = { patch, back: false, done: null };
      asked.push(edit);
      const { rev: base } = board;
      return board.edit(patch, { optimistic: true, ...(based ? { base } : {}) }).then(
        (rev) => (Object.assign(edit, { done: rev, epoch: run }), { rev }),
        ({ name, fault, message }) => ({ fails: name, fault: fault ?? message }),
      );
    },
    // All lines so far, and what the edits came to.
    lines: async () => {
      const { slots, confirmed, pending, state } = showing.connect();
      return { lines: lines.splice(0), edits: asked, last: { slots, confirmed, pending, state } };
    },
    edit: ({ patch, how }) => answer(board, patch, how),
    // Reads the count and writes the next one, until nobody was faster.
    count: async ({ logged }) => {
      await counter.ready;
      for (;;) {
        const patch = [{ op: "replace", path: "/count", value: counter.slots[0][0] + 1 }, logged];
        const answered = await answer(counter, patch, "based");
        if (answered.fault !== "stale") return answered;
        await counter.watch(["/count"]);
      }
    },
    // Raises a number and leaves a tag, by a draft.
    change: async ({ tag }) => {
      const make = (draft) => {
        draft.log.push(tag);
        draft.changed += 1;
      };
      return changer.change(make, { tries: 1000 }).then(
        (rev) => ({ rev }),
        ({ name, fault, message }) => ({ fails: name, fault: fault ?? message }),
      );
    },
    watch: async ({ view }) => ({ slots: await board.watch(view) }),
    look: async () => {
      const { view, slots, rev, state } = board;
      return {
        view,
        slots,
        rev,
        state,
        spoiled: handed.some(([value, text]) => JSON.stringify(value) !== text),
      };
    },
  };
  const failed = ({ name, fault, message }) => ({ fails: name, fault: fault ?? message });
  return (asked) => jobs[asked.do](asked).catch(failed);
};
