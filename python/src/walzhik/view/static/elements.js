// Elements of the page, made without markup: whatever a file or the server has named becomes text, never tags.

const SVG = "http://www.w3.org/2000/svg";

export const found = (id) => document.getElementById(id);

function furnish(element, attributes, children) {
  for (const [name, value] of Object.entries(attributes)) {
    if (value !== null && value !== undefined && value !== false) element.setAttribute(name, value === true ? "" : value);
  }
  element.append(...children);
  return element;
}

export const make = (tag, attributes = {}, ...children) => furnish(document.createElement(tag), attributes, children);

export const draw = (tag, attributes = {}, ...children) =>
  furnish(document.createElementNS(SVG, tag), attributes, children);

// A button that does something.
export function button(attributes, words, onClick) {
  const made = make("button", { type: "button", ...attributes }, words);
  made.addEventListener("click", () => isUsable(made) && onClick());
  return made;
}

// A button that can't be used now keeps the focus: it is marked, and does nothing.
export const isUsable = (element) => element.getAttribute("aria-disabled") !== "true";

export const setUsable = (id, isNow) => found(id).setAttribute("aria-disabled", String(!isNow));

// A control with the words that are its name in front of it.
export const field = (words, control) => make("label", { class: "field" }, make("span", {}, words), control);

// A box to tick, with the words that are its name behind it.
export const ticked = (words, control) => make("label", { class: "field" }, control, make("span", {}, words));

// A select with [value, words] options; its name is the label around it, where none is given.
export function select(id, label, options, value) {
  const made = make("select", { id, "aria-label": label });
  for (const [each, words] of options) made.append(make("option", { value: each }, words));
  made.value = String(value);
  return made;
}

// A wheel over a number that has the focus turns the page, never the number.
function scrolled(event) {
  if (document.activeElement !== event.currentTarget) return;
  event.preventDefault();
  const box = event.currentTarget.closest(".scroll");
  const isOwn = box && box.scrollHeight > box.clientHeight;
  (isOwn ? box : window).scrollBy({ top: event.deltaY, behavior: "instant" });
}

// A field for a number. While somebody types in it, it is theirs: `fill` leaves it alone until they are done. Where they end
// with the number that was there, it shows what the design has by then.
export function number(id, label, value) {
  const made = make("input", { id, type: "number", step: 1, "aria-label": label, value });
  made.addEventListener("input", () => (made.dataset.typing = ""));
  made.addEventListener("change", () => delete made.dataset.typing);
  made.addEventListener("blur", () => {
    if (!("typing" in made.dataset)) return;
    delete made.dataset.typing;
    if ("wanted" in made) made.value = made.wanted;
  });
  made.addEventListener("wheel", scrolled, { passive: false });
  return made;
}

export function fill(id, value) {
  const control = found(id);
  control.wanted = value;
  if (!("typing" in control.dataset)) control.value = value;
}

// What is being typed counts from now on; whether it is refused.
export function finishTyping() {
  const control = document.activeElement;
  if (!("typing" in control.dataset)) return false;
  control.dispatchEvent(new Event("change"));
  return control.getAttribute("aria-invalid") === "true";
}

const FOCUSABLE = "input, select, button, [tabindex]";
const focusable = (box) => [...box.querySelectorAll(FOCUSABLE)];

// Builds a part of the page anew; the focus stays on the control of the same name, or else on the one at its place.
export function rebuilt(box, build) {
  const focused = document.activeElement;
  const place = focusable(box).indexOf(focused);
  const label = focused?.getAttribute("aria-label");
  build();
  if (place < 0 || focused.isConnected) return;
  const all = focusable(box);
  (all.find((each) => label && each.getAttribute("aria-label") === label) ?? all[Math.min(place, all.length - 1)])?.focus();
}

// Thousandths of a millimetre as a text in millimetres.
const PER_MM = 1000;
export const millimetres = (thousandths) => (thousandths / PER_MM).toFixed(3);

export const woodWords = { ring: "whole ring", earlywood: "earlywood", latewood: "latewood" };
