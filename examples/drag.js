// A card follows the pointer, with a gap where it would go: a mouse takes it anywhere, a finger by
// its grip.
"use strict";

const FAR = 5; // pixels, from where on a press is a drag

/** @param dropped is told the element, its list and its place there */
function draggable(element, lists, dropped) {
  element.addEventListener("pointerdown", (down) => {
    const grips =
      down.pointerType === "mouse"
        ? !down.target.closest("button, input")
        : down.target.closest(".grip");
    if (down.button !== 0 || !grips) return;
    let drag = null;
    const move = (event) => {
      if (
        drag === null &&
        Math.hypot(event.clientX - down.clientX, event.clientY - down.clientY) < FAR
      ) {
        return;
      }
      drag ??= lift(element, down);
      follow(drag, lists, event);
    };
    const end = (event) => {
      removeEventListener("pointermove", move);
      removeEventListener("pointerup", end);
      removeEventListener("pointercancel", end);
      if (drag !== null) settle(drag, lists, event.type === "pointerup" ? dropped : null);
    };
    addEventListener("pointermove", move);
    addEventListener("pointerup", end);
    addEventListener("pointercancel", end);
  });
}

function lift(element, { clientX, clientY }) {
  const { left, top, width, height } = element.getBoundingClientRect();
  const gap = document.createElement("li");
  gap.className = "gap";
  gap.style.height = `${height}px`;
  element.after(gap);
  element.style.width = `${width}px`;
  element.classList.add("lifted");
  getSelection()?.removeAllRanges();
  return { element, gap, dx: left - clientX, dy: top - clientY };
}

function follow({ element, gap, dx, dy }, lists, { clientX, clientY }) {
  element.style.left = `${clientX + dx}px`;
  element.style.top = `${clientY + dy}px`;
  const list = lists.find((each) => isOver(each.parentElement, clientX, clientY));
  lists.forEach((each) => each.parentElement.classList.toggle("over", each === list));
  if (list === undefined) return;
  const others = [...list.children].filter((item) => item !== element && item !== gap);
  const next = others.find((item) => clientY < middle(item));
  if (gap.parentElement !== list || gap.nextElementSibling !== (next ?? null)) {
    list.insertBefore(gap, next ?? null);
  }
}

function settle({ element, gap }, lists, dropped) {
  const list = lists.indexOf(gap.parentElement);
  const place = [...gap.parentElement.children].filter((item) => item !== element).indexOf(gap);
  const from = element.getBoundingClientRect();
  gap.remove();
  element.classList.remove("lifted");
  element.removeAttribute("style");
  lists.forEach((each) => each.parentElement.classList.remove("over"));
  dropped?.(element, list, place);
  fly(element, from);
  // A press that was a drag is no click.
  addEventListener("click", (event) => event.stopPropagation(), { capture: true, once: true });
  setTimeout(() => dispatchEvent(new Event("click")));
}

function isOver(element, x, y) {
  const { left, right, top, bottom } = element.getBoundingClientRect();
  return x >= left && x <= right && y >= top && y <= bottom;
}

function middle(element) {
  const { top, height } = element.getBoundingClientRect();
  return top + height / 2;
}
