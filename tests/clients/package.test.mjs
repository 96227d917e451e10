// The package as an application has it: installed from its folder by npm, imported, required,
// bundled, and as a script.
import assert from "node:assert/strict";
import { execFileSync } from "node:child_process";
import { existsSync, mkdirSync, mkdtempSync, readFileSync, rmSync, writeFileSync } from "node:fs";
import { createRequire } from "node:module";
import { tmpdir } from "node:os";
import { join } from "node:path";
import { after, test } from "node:test";
import { fileURLToPath, pathToFileURL } from "node:url";
import { runInNewContext } from "node:vm";

const NAME = "@bolsteregret/relay";
const KINDS = ["Refused", "Unknown", "Superseded", "Closed", "HandshakeFailed"];
const ROOT = fileURLToPath(new URL("../../", import.meta.url));
const folder = mkdtempSync(join(tmpdir(), "relay-package-"));
after(() => rmSync(folder, { recursive: true }));
const own = join(folder, "node_modules", NAME);

writeFileSync(join(folder, "package.json"), '{ "name": "application", "private": true }');
// As clients/README.md says.
const words = ["install", "--install-links", "--offline", "--no-audit", "--no-fund"];
execFileSync("npm", [...words, join(ROOT, "clients/javascript")], { cwd: folder, stdio: "pipe" });
const require = createRequire(join(folder, "application.cjs"));

/** Of the package as it is imported there. */
async function imported(name = NAME) {
  const module = join(folder, "imports.mjs");
  writeFileSync(module, `export * from "${NAME}";\n`);
  if (name === NAME) return import(pathToFileURL(module).href);
  return import(pathToFileURL(join(own, name)).href);
}

test("it brings its licences, its types, and what is named in it", () => {
  const { exports, license } = require(`${NAME}/package.json`);
  assert.equal(license, "MIT OR Apache-2.0");
  for (const name of ["LICENSE-MIT", "LICENSE-APACHE"]) {
    assert.equal(readFileSync(join(own, name), "utf8"), readFileSync(join(ROOT, name), "utf8"));
  }
  const files = (part) => (typeof part === "string" ? [part] : Object.values(part).flatMap(files));
  for (const file of files(exports)) assert.ok(existsSync(join(own, file)), file);
  assert.ok(require.resolve(`${NAME}/relay.js`).endsWith("relay.js"));
  for (const name of ["relay.js", "relay.mjs"]) {
    assert.match(readFileSync(join(own, name), "utf8"), /SPDX.*: MIT OR Apache-2.0/);
  }
});

test("an error of one copy is an instance of the class of another", async () => {
  const copies = [require(NAME), await imported(), await imported("relay.mjs")];
  assert.equal(new Set(copies.map(({ Refused }) => Refused)).size, 3);
  for (const one of copies) {
    const errors = [
      new one.Refused({ fault: "stale", rev: 1 }),
      new one.Unknown(),
      new one.Superseded(),
      new one.Closed(),
      new one.HandshakeFailed("refused", "ws://h/rooms/a", 404),
    ];
    for (const other of copies) {
      for (const error of errors) {
        const kinds = KINDS.filter((kind) => error instanceof other[kind]);
        assert.deepEqual([kinds, error instanceof Error], [[error.name], true]);
      }
      for (const no of [null, undefined, 5, "Refused", {}, new Error("Refused")]) {
        assert.equal(no instanceof other.Refused, false);
      }
      class Own extends other.Refused {}
      const narrower = new Own({ fault: "x" });
      assert.deepEqual([errors[0] instanceof Own, narrower instanceof Own], [false, true]);
      assert.ok(narrower instanceof one.Refused);
    }
  }
});

test("`require` makes no global, and a script does", () => {
  require(NAME);
  assert.equal("relay" in globalThis, false);
  const page = { URL, WebSocket: class {}, console };
  runInNewContext(readFileSync(join(own, "relay.js"), "utf8"), page);
  assert.equal(typeof page.relay.connect, "function");
});

test("a bundler finds React beside it", () => {
  const react = join(folder, "node_modules/react");
  mkdirSync(react);
  writeFileSync(join(react, "package.json"), '{ "name": "react", "version": "18.2.0" }');
  const hooks = ["Callback", "Effect", "Memo", "Ref", "State", "SyncExternalStore"];
  const stub = hooks.map((name) => `exports.use${name} = () => "the application's";\n`).join("");
  writeFileSync(join(react, "index.js"), stub);
  const entry = join(folder, "entry.mjs");
  writeFileSync(entry, `export { useSlot } from "${NAME}/react";\n`);
  const flags = ["--bundle", "--format=esm", "--log-level=warning"];
  const text = execFileSync("esbuild", [entry, ...flags], { cwd: folder, encoding: "utf8" });
  assert.match(text, /the application's/);
  const { peerDependencies, peerDependenciesMeta } = require(`${NAME}/package.json`);
  assert.deepEqual(Object.keys(peerDependencies), Object.keys(peerDependenciesMeta));
});
