// Writes each snippet of the documents into a folder, as a file that is named after its place: node
// extract.mjs FOLDER DOCUMENT...
import { join, relative } from "node:path";
import { writeFileSync } from "node:fs";
import { snippets } from "../snippets/snippets.mjs";

const root = new URL("../..", import.meta.url).pathname;
const [folder, ...documents] = process.argv.slice(2);
for (const document of documents) {
  const name = relative(root, document);
  const found = snippets(document).filter(({ kind }) => kind !== "html");
  for (const { kind, body, line } of found) {
    // A module, also where it imports nothing.
    writeFileSync(
      join(folder, `${name.replace(/\W/g, "_")}-${line}.${kind === "jsx" ? "tsx" : kind}`),
      `${body}export {};\n`,
    );
  }
  if (found.length > 0) console.log(`${name}: ${found.length} snippets`);
}
