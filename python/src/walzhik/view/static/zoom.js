// Hands on the picture beside the handles: the wheel, the buttons and the keys that zoom and move along the rings, the ring under
// the pointer, and a double click, which splits a stretch.

import { found } from "./elements.js";

const CLOSER = 1.5; // times, by a button or a key
const WHEEL = 0.002; // of a zoom, a pixel of the wheel
const STEP = 0.5; // of the width in sight, by a button or a key
const KEYS = {
  "+": (view, about) => view.zoom(CLOSER, about),
  "=": (view, about) => view.zoom(CLOSER, about),
  "-": (view, about) => view.zoom(1 / CLOSER, about),
  0: (view) => (view.part = null),
  PageUp: (view) => view.move(-STEP),
  PageDown: (view) => view.move(STEP),
};
const BUTTONS = { "zoom-in": "+", "zoom-out": "-", whole: "0", earlier: "PageUp", later: "PageDown" };
const TYPED = "input, select, textarea";

export class Zoom {
  constructor(picture, { onRead, onSplit }) {
    Object.assign(this, { picture, onRead, onSplit, dragged: null });
    const { svg } = picture;
    svg.addEventListener("wheel", (event) => this.wheel(event), { passive: false });
    svg.addEventListener("pointerdown", (event) => this.grip(event));
    svg.addEventListener("pointermove", (event) => this.follow(event));
    for (const name of ["pointerup", "pointercancel"]) svg.addEventListener(name, () => (this.dragged = null));
    svg.addEventListener("pointerleave", () => !picture.handles.held && onRead(null));
    svg.addEventListener("dblclick", (event) => this.split(event));
    found("look").addEventListener("keydown", (event) => this.key(event));
    for (const [id, key] of Object.entries(BUTTONS)) found(id).addEventListener("click", () => this.change(KEYS[key]));
  }

  // Changes what is in sight; keys zoom about the handle that has the focus.
  change(how) {
    how(this.picture.view, document.activeElement.handle?.ring);
    this.picture.again();
    found("whole").setAttribute("aria-pressed", String(this.picture.view.part === null));
  }

  key(event) {
    if (event.ctrlKey || event.metaKey || event.altKey || event.target.matches(TYPED)) return;
    if (!Object.hasOwn(KEYS, event.key)) return;
    event.preventDefault();
    this.change(KEYS[event.key]);
  }

  // Ctrl and the wheel zoom about the pointer, Shift and the wheel move along; the wheel alone scrolls the page.
  wheel(event) {
    if (!(event.ctrlKey || event.shiftKey) || this.picture.handles.held) return;
    event.preventDefault();
    const turned = event.deltaY || event.deltaX;
    const { across } = this.picture.scales;
    const ring = across.nearest(this.picture.handles.pixel(event).x);
    const share = turned / Math.abs(across.end - across.start);
    this.change((view) => (event.ctrlKey ? view.zoom(Math.exp(-turned * WHEEL), ring) : view.move(share)));
  }

  grip(event) {
    if (event.button !== 0 || event.target.closest(".handle") || !this.picture.view.part) return;
    this.dragged = this.picture.handles.pixel(event).x;
    this.picture.svg.setPointerCapture(event.pointerId);
  }

  follow(event) {
    const { x } = this.picture.handles.pixel(event);
    if (this.dragged !== null) {
      const { across } = this.picture.scales;
      const share = (this.dragged - x) / (across.end - across.start);
      this.dragged = x;
      this.change((view) => view.move(share));
    }
    if (this.picture.scales && !this.picture.handles.held) this.onRead(this.picture.ringAt(x));
  }

  split(event) {
    if (!event.target.closest(".handle")) this.onSplit(this.picture.ringAt(this.picture.handles.pixel(event).x));
  }
}
