// Prints what the JavaScript client makes of patches: reads a line `[view, slots, patch, after]`
// for each, and writes a line with what tests/agreement/clients.py says.
import { createInterface } from "node:readline";
import { after, knownBy, slotOf } from "../../clients/javascript/src/known.mjs";
import { inverse } from "../../clients/javascript/src/inverse.mjs";
import { touches } from "../../clients/javascript/src/touch.mjs";
import { Misfit } from "../../clients/javascript/src/patch.mjs";

function translation(view, slots, patch, led) {
  const before = knownBy(view, slots);
  return orRefused(() => ({
    slots: shown(before, view, patch),
    touches: touches(before, patch, view),
    undone: undone(view, before, patch, led),
  }));
}

function undone(view, before, patch, led) {
  const back = inverse(before, patch);
  return back && orRefused(() => shown(knownBy(view, led), view, back.patch));
}

function shown(before, view, patch) {
  const whole = patch.reduce(after, before);
  return view.map((shown) => slotOf(whole, shown));
}

function orRefused(make) {
  try {
    return make();
  } catch (error) {
    if (!(error instanceof Misfit)) throw error;
    return "refused";
  }
}

const lines = [];
for await (const line of createInterface({ input: process.stdin })) {
  lines.push(JSON.stringify(translation(...JSON.parse(line))));
}
process.stdout.write(lines.join("\n"));
