// Makes relay.js, for script tags and `require`, and relay.mjs, for `import`, from src/: one file
// each, in which each module is a function that is called once and gives what it exports. And
// copies the licences of the repository, which a package has to bring. `node build.mjs` writes all
// of them; `node build.mjs --check` fails where they are not what it would write.
import { readFileSync, writeFileSync } from "node:fs";

const HERE = new URL(".", import.meta.url);
const COLUMNS = 100;
const MADE =
  "// Made from src/ by build.mjs. What it is for: ../README.md; its types: relay.d.ts.\n" +
  "// SPDX-License-Identifier: MIT OR Apache-2.0\n";
const IMPORT = /^import \{ (.*) \} from "\.\/(.*)\.mjs";$/gm;
const REEXPORT = /^export \{ (.*) \} from "\.\/(.*)\.mjs";$/gm;
const EXPORT = /^export (?=(?:async )?(?:function|class|const) (\w+))/gm;

/** The modules by their names, each behind those that it needs. */
function modules(name, read = new Map()) {
  if (read.has(name)) return read;
  const text = readFileSync(new URL(`src/${name}.mjs`, HERE), "utf8");
  for (const [, , other] of [...text.matchAll(IMPORT), ...text.matchAll(REEXPORT)]) {
    modules(other, read);
  }
  return read.set(name, text);
}

function exported(text) {
  const own = [...text.matchAll(EXPORT)].map(([, name]) => name);
  const others = [...text.matchAll(REEXPORT)].flatMap(([, names]) => names.split(", "));
  return [...own, ...others].sort();
}

function asFunction([name, text]) {
  const taken = "const { $1 } = $2Module;";
  const body = text.replace(IMPORT, taken).replace(REEXPORT, taken).replace(EXPORT, "");
  if (/^(?:import|export)\b/m.test(body)) {
    throw new Error(`src/${name}.mjs imports or exports in a form that build.mjs does not read`);
  }
  const given = listed("return", exported(text), ";");
  return `const ${name}Module = (() => {\n${body}\n${given}\n})();\n`;
}

/** The names in braces, each on a line of its own if they are too long for one. */
function listed(front, names, behind) {
  const line = `${front} { ${names.join(", ")} }${behind}`;
  if (line.length <= COLUMNS) return line;
  return `${front} {\n${names.map((name) => `  ${name},\n`).join("")}}${behind}`;
}

// Nothing that is made is indented, so that no line of it is longer than in src/.
const all = modules("relay");
const body = [...all].map(asFunction).join("\n");
const names = exported(all.get("relay"));

const files = {
  "relay.mjs": `${MADE}
${body}
${listed("const", names, " = relayModule;")}
${listed("export", names, ";")}
`,
  "relay.js": `${MADE}"use strict";
(() => {
${body}
if (typeof module === "object") module.exports = relayModule;
else globalThis.relay = relayModule;
})();
`,
  "LICENSE-APACHE": licence("APACHE"),
  "LICENSE-MIT": licence("MIT"),
};

function licence(name) {
  return readFileSync(new URL(`../../LICENSE-${name}`, HERE), "utf8");
}

for (const [name, text] of Object.entries(files)) {
  const file = new URL(name, HERE);
  if (process.argv[2] !== "--check") writeFileSync(file, text);
  else if (readFileSync(file, "utf8") !== text) {
    const remedy = "run node clients/javascript/build.mjs";
    console.error(`clients/javascript/${name} is not what build.mjs makes: ${remedy}`);
    process.exitCode = 1;
  }
}
