// Runs the snippets of documents in node, each in a room of its own of one relay (RELAY names the
// program), and compares what `show` shows with the block `text` behind it. A component is drawn:
// node play.mjs FOLDER DOCUMENT...    FOLDER has the packages.
import assert from "node:assert/strict";
import { spawn } from "node:child_process";
import { createInterface } from "node:readline";
import { createRequire } from "node:module";
import { join } from "node:path";
import { writeFileSync } from "node:fs";
import { pathToFileURL } from "node:url";
import { snippets } from "./snippets.mjs";

const BEGUN = { cards: ["milk", "bread"], title: "Shopping", count: 0 };
const COMPONENT = /^function ([A-Z]\w*)/m;
const [folder, ...documents] = process.argv.slice(2);
const needs = createRequire(join(folder, "package.json"));
// The same module as the snippets import, so that what a board fails with is an instance of their
// classes.
const client = join(folder, "node_modules/@bolsteregret/relay/src/relay.mjs");
const { connect } = await import(pathToFileURL(client));
const relay = spawn(process.env.RELAY, ["serve", "--port", "0", "--epoch", "1000"], {
  stdio: ["ignore", "pipe", "ignore"],
});
process.on("exit", () => relay.kill());
const lines = createInterface({ input: relay.stdout });
const { value: listening } = await lines[Symbol.asyncIterator]().next();
const port = listening.split(" ")[1];

/** Gives what tests/types/given.d.ts declares. */
async function given(number) {
  const url = `ws://127.0.0.1:${port}/rooms/s${number}`;
  const shown = [];
  const board = connect(url, { view: ["/cards", "/title", "/count"] });
  await board.edit([{ op: "add", path: "", value: BEGUN }], { undo: false });
  await board.ready;
  while (board.rev !== 1) await new Promise((resolve) => setTimeout(resolve, 5));
  const text = (thing) => (typeof thing === "string" ? thing : JSON.stringify(thing));
  const show = (...things) => shown.push(things.map(text).join(" "));
  Object.assign(globalThis, { url, board, show });
  return shown;
}

/** The snippet as a module that node can run. */
function asModule(kind, body) {
  const text = body.replaceAll("ws://127.0.0.1:8080/", `ws://127.0.0.1:${port}/`);
  if (kind === "mjs") return text;
  const { transpileModule, ScriptTarget, ModuleKind, JsxEmit } = needs("typescript");
  const compilerOptions = {
    target: ScriptTarget.ES2022,
    module: ModuleKind.ES2022,
    jsx: JsxEmit.React,
  };
  const { outputText } = transpileModule(text, { compilerOptions });
  if (kind === "mts") return outputText;
  const component = COMPONENT.exec(body)[1];
  return `import React from "react";\n${outputText}\nexport { ${component} as component };`;
}

let number = 0;
for (const document of documents) {
  const found = snippets(document).filter(({ kind }) => kind !== "html");
  for (const { kind, body, line, prints } of found) {
    const file = join(folder, `run-${(number += 1)}.mjs`);
    writeFileSync(file, asModule(kind, body));
    const shown = await given(number);
    const place = `${document}, line ${line}`;
    const ending = setTimeout(() => assert.fail(`${place}: it does not end`), 20_000);
    const { component } = await import(pathToFileURL(file));
    clearTimeout(ending);
    if (prints !== null) assert.equal(`${shown.join("\n")}\n`, prints, place);
    if (kind === "jsx") {
      const element = needs("react").createElement(component);
      assert.match(needs("react-dom/server").renderToString(element), /Shopping/, place);
    }
  }
  if (found.length > 0) {
    console.log(`${document.split("/").slice(-2).join("/")}: ${found.length} snippets run in node`);
  }
}
assert.ok(number > 0, "no snippets");
process.exit();
