// The JavaScript client in Node, played by lines: each is a JSON object with `id` and `do`, and has
// one answer with that `id`.
const { createInterface } = require("node:readline");
const relay = require("../../clients/javascript/relay.js");
require("./jobs.js");

const [url, view, ...more] = process.argv.slice(2);
const player = play(relay, url, JSON.parse(view), more.includes("watch"));

createInterface({ input: process.stdin })
  .on("line", async (line) => {
    const { id, ...asked } = JSON.parse(line);
    console.log(JSON.stringify({ id, ...(await player(asked)) }));
  })
  .on("close", () => process.exit());
