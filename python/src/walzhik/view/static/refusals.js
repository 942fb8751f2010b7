// Refusals in words beside the control that is at fault, which is marked for the eye and for a screen reader.

import { found, make } from "./elements.js";

const SHOWN = "refusal-words";

export function clearRefusals() {
  for (const element of document.querySelectorAll(`.${SHOWN}`)) element.remove();
  for (const element of document.querySelectorAll("[aria-invalid]")) {
    element.removeAttribute("aria-invalid");
    element.removeAttribute("aria-describedby");
  }
  for (const element of document.querySelectorAll(".fault")) element.classList.remove("fault");
}

function beside(control, words) {
  const row = control.closest("tr");
  if (!row) {
    (control.closest(".field") ?? control).after(words);
    return words;
  }
  const line = make("tr", { class: SHOWN }, make("td", { colspan: row.cells.length }, words));
  row.after(line);
  return line;
}

// Marks the control of a refusal and puts its words beside it.
export function showRefusal({ number, place, words, remedy, control }) {
  const marked = found(control) ?? found("lists");
  const id = `words-${control}`;
  const head = number === null ? "" : `no=${number},${place}. `;
  const text = make("p", { id, class: `${SHOWN} words` }, `${head}${words} ${remedy}`.trim());
  marked.setAttribute("aria-invalid", "true");
  marked.setAttribute("aria-describedby", id);
  for (const handle of document.querySelectorAll(`[data-control="${control}"]`)) {
    handle.classList.add("fault");
    handle.setAttribute("aria-invalid", "true");
    handle.setAttribute("aria-describedby", id);
  }
  return beside(marked, text);
}

// A whole number that was typed, or null where none was: nothing is rounded.
export function typedWhole(input) {
  const value = Number(input.value);
  return input.value.trim() !== "" && Number.isSafeInteger(value) ? value : null;
}

export const notWhole = (control) => ({
  number: null,
  place: null,
  words: "A whole number is needed here.",
  remedy: "",
  control,
});
