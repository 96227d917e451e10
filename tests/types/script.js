// A page's script, which has the global `relay`.
const board = relay.connect("ws://127.0.0.1:8080/rooms/plan", { view: ["/title"] });
board.subscribe(({ slots: [title] }) => (document.title = String(title[0])));
