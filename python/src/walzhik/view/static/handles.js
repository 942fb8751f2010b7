// Handles in the picture that a hand or a key moves: coefficients up and down, breakpoints along the rings. They are kept and
// moved, not made anew, so that a drag or the focus is never lost.

import { draw, millimetres, woodWords } from "./elements.js";
import { coefficient, room, woods } from "./design.js";
import { spread } from "./spread.js";

const KEY_STEPS = { coefficient: 10, break: 1 }; // thousandths, rings
const LARGER = 10; // times, with Shift
const ALONG = { ArrowLeft: -1, ArrowRight: 1 };
const UPWARDS = { ArrowDown: -1, ArrowUp: 1 };
const GROUPS = ["break", "ring", "earlywood", "latewood"];
const SHAPES = {
  ring: "M-6 0a6 6 0 1 0 12 0a6 6 0 1 0 -12 0Z",
  earlywood: "M-6 0a6 6 0 1 0 12 0a6 6 0 1 0 -12 0Z",
  latewood: "M-5.5 -5.5H5.5V5.5H-5.5Z",
  break: "M0 -9L7 -2V9H-7V-2Z",
};
const TOUCHED = 14; // radius of what a finger may hit
const DENSE_PIXELS = 24; // between neighbours: handles are smaller where there is less room

const breakHandle = (design, place, most) => ({
  id: `break-${place}`,
  kind: "break",
  group: "break",
  place,
  value: design.breaks[place],
  ring: design.breaks[place],
  room: room(design, place, most),
  isJoin: place > 0 && place < design.breaks.length - 1,
  words: `Breakpoint ${place}`,
  text: `ring ${design.breaks[place]}`,
});

const coefficientHandle = (value, row, wood, ring, most) => ({
  id: `coefficient-${row}-${wood}`,
  kind: "coefficient",
  group: wood,
  place: row,
  value,
  ring,
  room: [-most, most],
  words: `Coefficient ${row}, ${woodWords[wood]}, near ring ${Math.round(ring)}`,
  text: `${millimetres(value)} mm`,
});

// All handles of a design.
function wanted(design, places, limits) {
  const made = design.breaks.map((_, place) => breakHandle(design, place, limits.breakpoint));
  for (const wood of woods(design)) {
    design.pairs.forEach((_, row) => {
      const value = coefficient(design, row, wood);
      if (row in places) made.push(coefficientHandle(value, row, wood, places[row], limits.coefficient));
    });
  }
  return made;
}

export class Handles {
  // What a hand or a key does is told to `on`: move, cancel, reach (a pixel's number), bring (a ring into sight), remove (a join).
  constructor(svg, limits, on) {
    Object.assign(this, { svg, limits, on, held: null, pressed: null, current: {} });
    this.elements = new Map();
    this.layers = Object.fromEntries(GROUPS.map((group) => [group, draw("g", { class: "handles" })]));
    svg.append(...GROUPS.map((group) => this.layers[group]));
    document.addEventListener("keydown", (event) => this.escape(event), true);
  }

  // Shows the handles of a design at the scales' places.
  show(design, places, scales) {
    this.scales = scales;
    const focused = document.activeElement;
    const all = wanted(design, places, this.limits);
    this.drop(new Set(all.map(({ id }) => id)));
    const spots = all.map((handle) => ({ handle, ...this.spot(handle) }));
    const shifts = spread(spots.filter(({ handle }) => handle.kind !== "break" && handle.id !== this.held?.handle.id));
    for (const spot of spots) this.place(spot, shifts.get(spot) ?? 0);
    const away = Math.abs(scales.across.at(scales.across.to) - scales.across.start) / places.length;
    for (const layer of Object.values(this.layers)) layer.classList.toggle("dense", away < DENSE_PIXELS);
    this.rove();
    if (focused.handle && focused.isConnected) this.stay(focused);
  }

  // The focus goes on from a handle that is out of sight to one that is not.
  stay(element) {
    if (!element.classList.contains("outside")) return;
    const inSight = [...this.elements.values()].filter((each) => each.getAttribute("tabindex") === "0");
    (inSight.find(({ handle }) => handle.group === element.handle.group) ?? inSight[0] ?? document.getElementById("whole")).focus();
  }

  // Takes away what the design no longer has; the focus goes to the neighbour.
  drop(ids) {
    for (const [id, element] of this.elements) {
      if (ids.has(id)) continue;
      const isFocused = document.activeElement === element;
      if (this.held === element) this.held = null;
      element.remove();
      this.elements.delete(id);
      const { group, place } = element.handle;
      const last = [...this.elements.values()].filter(({ handle }) => handle.group === group && ids.has(handle.id));
      if (isFocused) (last.findLast(({ handle }) => handle.place <= place) ?? this.elements.values().next().value)?.focus();
    }
  }

  spot(handle) {
    const { across, up } = this.scales;
    return { x: across.at(handle.ring), y: handle.kind === "break" ? up.start + TOUCHED : up.at(handle.value) };
  }

  place({ handle, x, y }, shift) {
    const element = this.elements.get(handle.id) ?? this.add(handle);
    Object.assign(element, { handle, spot: { x: x + shift, y } });
    element.classList.toggle("outside", !this.scales.across.shows(handle.ring, 1));
    element.setAttribute("transform", `translate(${x + shift} ${y})`);
    element.setAttribute("aria-valuemin", handle.room[0]);
    element.setAttribute("aria-valuemax", handle.room[1]);
    element.setAttribute("aria-valuenow", handle.value);
    element.setAttribute("aria-valuetext", handle.text);
    element.setAttribute("aria-label", handle.words);
    if (!element.hasAttribute("aria-invalid")) element.setAttribute("aria-describedby", "readout");
    element.firstChild.textContent = `${handle.words}: ${handle.text}`;
  }

  add(handle) {
    const element = draw(
      "g",
      {
        class: `handle ${handle.group}`,
        role: "slider",
        "data-control": handle.id,
        "aria-orientation": handle.kind === "break" ? "horizontal" : "vertical",
        tabindex: -1,
      },
      draw("title"),
      draw("circle", { r: TOUCHED, class: "touch" }),
      draw("path", { d: SHAPES[handle.group] }),
    );
    this.listen(element);
    this.layers[handle.group].append(element);
    this.elements.set(handle.id, element);
    return element;
  }

  // One handle of each kind is reached by Tab, the one that had the focus last; arrows go on from there.
  rove() {
    for (const group of GROUPS) {
      const all = [...this.elements.values()].filter(({ handle }) => handle.group === group);
      const inSight = all.filter((element) => !element.classList.contains("outside"));
      const current = inSight.find(({ handle }) => handle.id === this.current[group]) ?? inSight[0];
      for (const element of all) element.setAttribute("tabindex", element === current ? 0 : -1);
    }
  }

  listen(element) {
    element.addEventListener("pointerdown", (event) => this.grip(this.nearest(event) ?? element, event));
    element.addEventListener("touchstart", (event) => event.preventDefault(), { passive: false }); // no scrolling from here
    element.addEventListener("pointermove", (event) => this.held === element && this.follow(element, event, false));
    element.addEventListener("pointerup", (event) => this.held === element && this.let(element, event));
    for (const name of ["pointercancel", "lostpointercapture"]) {
      element.addEventListener(name, () => this.held === element && this.cancel());
    }
    element.addEventListener("keydown", (event) => this.key(element, event));
    for (const name of ["keyup", "blur"]) element.addEventListener(name, () => this.release(element));
    element.addEventListener("focus", () => {
      this.current[element.handle.group] = element.handle.id;
      this.rove();
    });
  }

  // Of handles that lie over each other, the one whose middle is nearest to the pointer.
  nearest(event) {
    const at = this.pixel(event);
    const far = ({ spot }) => Math.hypot(spot.x - at.x, spot.y - at.y);
    const inSight = [...this.elements.values()].filter((element) => !element.classList.contains("outside"));
    return inSight.reduce((best, each) => (best === null || far(each) < far(best) ? each : best), null);
  }

  grip(element, event) {
    if (event.button !== 0 || this.held) return;
    event.preventDefault();
    this.finish();
    element.setPointerCapture(event.pointerId);
    element.focus();
    this.held = element;
    this.corner = this.svg.getBoundingClientRect();
    const { across, up } = this.scales;
    const { kind, value } = element.handle;
    const at = this.pixel(event);
    this.offset = kind === "break" ? across.at(value) - at.x : up.at(value) - at.y;
    this.isMoved = false;
  }

  // Where the pointer is in the picture; for a hand that holds something, in the picture as it stood at the start of the drag, so
  // that words which come and go around it move nothing.
  pixel(event) {
    const { left, top } = this.held ? this.corner : this.svg.getBoundingClientRect();
    return { x: event.clientX - left, y: event.clientY - top };
  }

  move(element, value, isLasting) {
    const [least, most] = element.handle.room;
    this.on.move(element.handle, Math.min(Math.max(value, least), most), isLasting);
  }

  follow(element, event, isLasting) {
    const at = this.pixel(event);
    const { kind } = element.handle;
    const pixel = (kind === "break" ? at.x : at.y) + this.offset;
    this.isMoved = true;
    this.move(element, Math.round(this.on.reach(kind, pixel)), isLasting);
  }

  let(element, event) {
    if (this.isMoved) this.follow(element, event, true);
    this.held = null;
    this.on.rest();
  }

  // What the hand holds goes back to where it was.
  cancel() {
    this.held = null;
    this.pressed = null;
    this.on.cancel();
  }

  escape(event) {
    if (event.key !== "Escape" || !this.held) return;
    event.preventDefault();
    event.stopPropagation();
    this.cancel();
  }

  // However long a key is held, it is one step to undo.
  release(element) {
    if (this.pressed === element) this.finish();
  }

  finish() {
    const element = this.pressed;
    this.pressed = null;
    if (element) this.on.move(element.handle, element.handle.value, true);
  }

  key(element, event) {
    if (event.ctrlKey || event.metaKey || event.altKey || this.held) return;
    const { kind, place, value, isJoin } = element.handle;
    const [moving, going] = kind === "break" ? [ALONG, UPWARDS] : [UPWARDS, ALONG];
    if (event.key in moving) {
      const step = KEY_STEPS[kind] * (event.shiftKey ? LARGER : 1);
      this.pressed = element;
      this.move(element, value + moving[event.key] * step, false);
    } else if (event.key in going) this.go(element, going[event.key]);
    else if (event.key === "Delete" && isJoin) {
      this.finish();
      this.on.remove(place - 1);
    } else return;
    event.preventDefault();
  }

  // The focus goes to a neighbour, which is brought into sight.
  go({ handle: { kind, group, place } }, step) {
    const id = kind === "break" ? `break-${place + step}` : `coefficient-${place + step}-${group}`;
    const next = this.elements.get(id);
    if (!next) return;
    this.finish();
    this.on.bring(next.handle.ring);
    next.focus();
  }
}
