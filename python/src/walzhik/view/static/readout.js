// What is at one ring: the widths, the curve and the indices there, under the pointer or at the handle that has the focus. All
// numbers are the server's.

import { found, make, millimetres, woodWords } from "./elements.js";

const BLANK = "\u00a0";
const PER_THOUSANDTH = 256; // values come in 256ths of a thousandth

const value = (number) => `${millimetres(number / PER_THOUSANDTH)} mm`;

// The curve's value at a ring. A span of more rings than one call takes comes without values but those of measured rings.
function curveWords(curve, { breaks }, ring, measured) {
  const at = curve.values[ring - breaks[0]] ?? measured ?? null;
  if (at !== null) return `curve ${value(at)}`;
  return ring < breaks[0] || ring > breaks.at(-1) ? "no curve" : "curve not read (too many rings)";
}

// The words for one curve, with the series beside it.
function part(curve, lists, series, ring) {
  const words = [];
  const place = series ? ring - series.first : -1;
  const isMeasured = series !== undefined && place in series.widths;
  if (isMeasured) words.push(series.widths[place] ? `width ${millimetres(series.widths[place])} mm` : "absent ring");
  words.push(curveWords(curve, lists, ring, isMeasured ? series.values?.[place] : null));
  const index = isMeasured ? series.indices?.[place] ?? -1 : -1;
  if (index >= 0) words.push(`index ${index}`);
  else if (isMeasured) words.push("no index");
  const name = series ? `, ${series.name}` : "";
  return `${woodWords[curve.wood]}${name}: ${words.join(", ")}`;
}

export class Readout {
  constructor() {
    Object.assign(this, { ring: null, shown: null });
  }

  // The ring to read; null for none.
  at(ring) {
    this.ring = ring;
    this.write();
  }

  show(shown) {
    this.shown = shown;
    this.write();
  }

  // A line a curve, also where nothing is read: so that the page does not jump.
  write() {
    const lines = this.shown?.answer.curves.map((curve) => (this.ring === null ? BLANK : this.words(curve))) ?? [];
    found("readout").replaceChildren(...lines.map((words) => make("span", { class: "line" }, words)));
  }

  words(curve) {
    const { answer, design, series, isStale } = this.shown;
    const isYear = design.first === null && series.length > 0;
    const beside = series.find(({ wood }) => wood === curve.wood);
    const stale = isStale ? " (the last good curve)" : "";
    return `${isYear ? "Year" : "Ring"} ${this.ring}, ${part(curve, answer.lists, beside, this.ring)}${stale}`;
  }
}
