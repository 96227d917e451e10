// Types of relay.mjs: those of relay.js.
export * from "./relay.js";
