// Grid, numbers and words of the axes, and the lines of the breakpoints across a panel.

import { draw, millimetres } from "./elements.js";
import { SCAR } from "./design.js";

const PIXELS_PER_TICK = { across: 80, up: 40 };
const NUMBERS_UP = 20; // pixels from the foot of the picture
const WORDS_UP = 4;

// The numbers of an axis upwards with their grid.
function upwards(across, up, text) {
  return up.ticks(Math.abs(up.end - up.start) / PIXELS_PER_TICK.up).flatMap((tick) => [
    draw("line", { class: tick === 0 ? "zero" : "grid", x1: across.start, x2: across.end, y1: up.at(tick), y2: up.at(tick) }),
    draw("text", { class: "number up", x: across.start - 6, y: up.at(tick) }, text(tick)),
  ]);
}

// One panel's axes; the numbers of the rings stand below the last panel alone.
export function axis({ svg, scales, shown }, up, words) {
  const { across } = scales;
  const isLast = up === (scales.index ?? scales.up);
  const text = up === scales.up ? (tick) => String(Number(millimetres(tick))) : String;
  const made = upwards(across, up, text);
  for (const tick of across.ticks((across.end - across.start) / PIXELS_PER_TICK.across)) {
    const x = across.at(tick);
    made.push(draw("line", { class: "tick", x1: x, x2: x, y1: up.start, y2: up.start + 4 }));
    if (isLast) made.push(draw("text", { class: "number across", x, y: svg.clientHeight - NUMBERS_UP }, String(tick)));
  }
  const middle = (up.start + up.end) / 2;
  made.push(draw("text", { class: "words", transform: `translate(11 ${middle}) rotate(-90)` }, words));
  const rings = shown.design.first === null && shown.series.length ? "year" : "ring";
  const below = { class: "words", x: (across.start + across.end) / 2, y: svg.clientHeight - WORDS_UP };
  if (isLast) made.push(draw("text", below, rings));
  return draw("g", { class: "axis" }, ...made);
}

export function breakLines({ scales, shown }, up, below) {
  const { breaks, orders } = shown.design;
  return breaks.map((ring, place) => {
    const isEnd = place === 0 || place === breaks.length - 1;
    const kind = isEnd ? "end" : orders[place - 1] === SCAR ? "scar" : "join";
    const x = scales.across.at(ring);
    return draw("line", { class: kind, x1: x, x2: x, y1: up.end, y2: up.start + below });
  });
}
