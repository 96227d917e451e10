// Names that nobody else has, for what a client keeps in a document.

const PARTS = 4;
const RANGE = 2 ** 24;

export function newId() {
  const part = () => Math.floor(Math.random() * RANGE).toString(36);
  return Array.from({ length: PARTS }, part).join("");
}
