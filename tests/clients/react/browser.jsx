// The application in a page.
import { createRoot } from "react-dom/client";
import { App, boards, drawn } from "./app.jsx";

const root = createRoot(document.querySelector("main"));
globalThis.begin = (url) => root.render(<App url={url} />);
globalThis.end = () => root.unmount();
globalThis.seen = { boards, drawn };
