// The snippets of a document: blocks of JavaScript and TypeScript, each with what it prints, which
// the block `text` behind it says.
import { readFileSync } from "node:fs";

const BLOCK = /^```(\w+)\n([\s\S]*?)^```$/gm;
const KINDS = {
  js: "mjs",
  javascript: "mjs",
  ts: "mts",
  typescript: "mts",
  jsx: "jsx",
  tsx: "tsx",
  html: "html",
};

export function snippets(file) {
  const text = readFileSync(file, "utf8");
  const blocks = [...text.matchAll(BLOCK)].map(({ 1: word, 2: body, index }) => ({
    word,
    body,
    line: text.slice(0, index).split("\n").length + 1,
  }));
  return blocks.flatMap(({ word, body, line }, k) => {
    if (!(word in KINDS)) return [];
    const next = blocks[k + 1];
    return [{ kind: KINDS[word], body, line, prints: next?.word === "text" ? next.body : null }];
  });
}
