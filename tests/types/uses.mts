// Shows how an application in TypeScript uses the client: it compiles in strict mode, and what is
// marked does not.
import {
  Refused,
  connect,
  inspected,
  pointer,
  presence,
  room,
  type Board,
  type Json,
} from "@bolsteregret/relay";

interface Card {
  text: string;
  done?: boolean;
}

interface Plan {
  cards: Card[];
  title: string;
  count: number;
  here: Record<string, { name: string }>;
  "a/b": { "m~n": boolean };
}

const url = "ws://127.0.0.1:8080/rooms/plan";
const view = ["/cards", { size: "/cards" }, "/title"] as const;
const card: Card = { text: "milk" };

// Without a type of the document: the slots are as many as the pointers, and a size is a number.
const plain = connect(url, {
  view: ["/title", { size: "/cards" }],
  onChange: ({ slots: [title, size] }) => use<number | undefined>(size[0] ?? title[0]),
});
use<number | undefined>(plain.slots?.[1][0]);

// With the document's type: places by their pointers.
const plan = connect<Plan>(url, { view });
use<readonly Card[] | undefined>(plan.at("/cards").value);
// @ts-expect-error: what is shown is sorted as a copy.
plan.at("/cards").value?.sort();
// @ts-expect-error: nor is a part of it written to.
plan.at("/cards").value![0].text = "tea";
use<Card[] | undefined>([...(plan.at("/cards").value ?? [])]);
use<Promise<number>>(plan.at("/cards").set([...(plan.at("/cards").value ?? []), card]));
use<Promise<number>>(plan.at("/cards").update((cards) => cards && [...cards, card]));
use<boolean | undefined>(plan.at("/cards/0/done").value);
use<boolean | undefined>(plan.at("/a~1b/m~0n").value);
use<number | undefined>(plan.at({ size: "/cards" }).value);
use<Promise<number>>(plan.at("/count").update((count = 0) => count + 1));
use<Promise<number>>(plan.at("/cards/0").set(card));
// @ts-expect-error: a number is no title.
plan.at("/title").set(5);
// @ts-expect-error: there is no such member.
use<string | undefined>(plan.at("/titel").value);

// With the view's type as well: the slots by their pointers. A view may be read-only.
const whole = connect<Plan, typeof view>(url, {
  view,
  onChange: ({ confirmed }) => use<string | undefined>(confirmed[2][0]),
});
use<readonly Card[]>(whole.slots?.[0][0] ?? []);
// @ts-expect-error: what is shown is sorted as a copy.
whole.slots?.[0][0]?.reverse();
use<number | undefined>(whole.slots?.[1][0]);
// @ts-expect-error: the view has three slots.
use<unknown>(whole.slots?.[3]);

// Pointers of keys, drafts, and elements by a key.
use<string | undefined>(plan.at(pointer("cards", 0, "text")).value);
use<boolean | undefined>(plan.at(pointer("a/b", "m~n")).value);
// @ts-expect-error: there is no such member.
use<string | undefined>(plan.at(pointer("cards", 0, "txt")).value);
const changed: Promise<number> = plan.change((draft) => {
  draft.cards.push(card);
  draft.cards[0].done = draft.count > 1;
  delete draft.cards[0].done;
  // @ts-expect-error: a number is no title.
  draft.title = 5;
}, { guard: "base", tries: 3 });
use<Promise<number>>(changed);
const keyed = plan.at("/cards").byKey("text");
use<Card | undefined>(keyed.get("milk"));
use<Promise<number>>(keyed.change("milk", (element) => void (element.done = true)));
use<Promise<number>>(plan.at("/cards").insert(0, card));
// @ts-expect-error: a text is no card.
plan.at("/cards").push("milk");
use<Promise<number>>(plain.change((draft) => draft.anything.at.all.push(1)));

connect(url, {
  view: [],
  WebSocket: inspected(({ way, message }) => use<string>(way + message.kind)),
});

// An interface is written as it is.
use<Promise<number>>(
  whole.edit([{ op: "add", path: "/cards/-", value: card }], { base: whole.rev, optimistic: true }),
);
// @ts-expect-error: JSON has no functions among its scalars.
use<Json>(() => 0);
// @ts-expect-error: a removal has no value to move from.
whole.edit([{ op: "move", path: "/title" }]);

// A room begins with an interface, or with any JSON.
const empty: Plan = { cards: [card], title: "", count: 0, here: {}, "a/b": { "m~n": true } };
connect<Plan>(url, { view, begin: empty });

const shared = room<Plan>(url, { begin: { cards: [], title: null } });
use<boolean | undefined>(shared.view(["/cards"]).at("/cards/0/done").value);
use<number>(shared.view(["/cards"]).pending);
use<Promise<number | null>>(shared.view(["/cards"]).undo());
use<Promise<number>>(shared.view(["/cards"]).end());
use<Promise<void>>(whole.will([{ op: "remove", path: "/here/ann" }]));
use<Promise<void>>(shared.view(["/cards"]).will([]));
use<Promise<number>>(connect<Plan>(url, { view, readOnly: true }).end());
use<number>(room<Plan>(url, { readOnly: true }).connections);
use<Promise<readonly [readonly [value?: readonly Card[]]]>>(shared.view(["/cards"]).sync());
use<string | undefined>(shared.view(["/title"]).slots?.[0][0]);
use<string | undefined>(presence(whole, "/here", { name: "Ann" }).people["1"]?.name);
whole.edit([]).catch((error) => error instanceof Refused && use<string>(error.fault));

function use<T>(_: T) {}
function takes(_: Board<any, any>) {}
takes(whole);
