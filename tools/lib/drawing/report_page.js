"use strict";
for (const box of document.querySelectorAll(".zoom")) {
  const drawn = box.querySelector("svg"), pane = box.querySelector(".scroll");
  const width = drawn.width.baseVal.value, height = drawn.height.baseVal.value;
  let scale = 1;
  const show = (wished) => {
    const next = Math.min(Math.max(wished, 0.05), 8), kept = (pane.scrollLeft + pane.clientWidth / 2) / scale;
    scale = next;
    drawn.setAttribute("width", width * scale);
    drawn.setAttribute("height", height * scale);
    pane.scrollLeft = kept * scale - pane.clientWidth / 2;
    box.querySelector("output").textContent = Math.round(scale * 100) + " %";
  };
  const acts = {
    larger: () => show(scale * 1.4), smaller: () => show(scale / 1.4), same: () => show(1),
    whole: () => show((pane.clientWidth - 20) / width),
  };
  for (const button of box.querySelectorAll("button")) button.addEventListener("click", acts[button.value]);
  pane.addEventListener("keydown", (event) => {
    const act = { "+": "larger", "=": "larger", "-": "smaller", "0": "same", f: "whole" }[event.key];
    if (act && !event.ctrlKey && !event.metaKey && !event.altKey) { acts[act](); event.preventDefault(); }
  });
}
