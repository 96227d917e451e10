// The application as a server draws it, where there are no sockets.
import { renderToString } from "react-dom/server";
import { App, boards } from "./app.jsx";

globalThis.WebSocket = undefined;
console.log(
  JSON.stringify({
    html: renderToString(<App url="ws://127.0.0.1:1/rooms/a" />),
    boards: boards.length,
  }),
);
