// A shape follows the pointer, by a mouse, a pen or a finger.
"use strict";

/**
 * @param lifted is told that it begins to follow
 * @param moved is told where its corner would be, from the window's, at each move
 * @param dropped is told that it ends: whether it is to be where it was
 */
function carried(element, { lifted, moved, dropped }) {
  element.addEventListener("pointerdown", (down) => {
    if (down.button !== 0 || !down.isPrimary || down.target.closest("button, textarea")) return;
    const { left, top } = element.getBoundingClientRect();
    const [dx, dy] = [left - down.clientX, top - down.clientY];
    const ending = new AbortController();
    const hear = (type, act) => {
      const its = (event) => (event.pointerId ?? down.pointerId) === down.pointerId && act(event);
      addEventListener(type, its, { signal: ending.signal });
    };
    const end = (isBack) => {
      ending.abort();
      element.classList.remove("held");
      dropped(isBack);
    };
    element.classList.add("held");
    lifted();
    hear("pointermove", ({ clientX, clientY }) => {
      if (element.isConnected) moved({ x: clientX + dx, y: clientY + dy });
      else end(false); // somebody has deleted it
    });
    hear("pointerup", () => end(false));
    hear("pointercancel", () => end(true));
    hear("keydown", ({ key }) => key === "Escape" && end(true));
  });
}
