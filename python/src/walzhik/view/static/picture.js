// The picture: widths and curves above, indices below, over one axis of rings. Pixels are all that is worked out here.

import { axis, breakLines } from "./axes.js";
import { draw, found } from "./elements.js";
import { coefficient, SCAR, woods } from "./design.js";
import { Handles } from "./handles.js";
import { legend } from "./legend.js";
import { curvePath, dotPath, ringPath } from "./paths.js";
import { Scale } from "./scale.js";
import { View } from "./view.js";

const MARGIN = { left: 62, right: 18, top: 14, between: 52, bottom: 38 };
const INDEX_SHARE = 0.3; // of the height
const HEADROOM = 1.06;
const ON_CURVE = 1000; // the index of a ring as wide as the curve
const DOT_PIXELS = 5; // between two dots, at least
const CROSS = 4;
const FAULT_RADIUS = 8;
const EDGE_SHARE = 0.03; // of the range, by which a hand at its edge draws a scale out at each move

const plane = (across, up) => `matrix(${across.factor} 0 0 ${up.factor} ${across.shift} ${up.shift})`;

const hidden = (numbers, isHidden) => numbers.map((number) => (isHidden(number) ? null : number));

const widest = ({ widths }) => widths.reduce((most, width) => Math.max(most, width), 0);

export class Picture {
  constructor(limits, on) {
    this.svg = found("picture");
    this.clip = draw("rect");
    this.layer = draw("g");
    this.svg.append(draw("clipPath", { id: "inside" }, this.clip), this.layer);
    this.view = new View();
    const own = { reach: (kind, pixel) => this.reach(kind, pixel), bring: (ring) => this.bring(ring), rest: () => this.again() };
    this.handles = new Handles(this.svg, limits, { ...on, ...own });
    Object.assign(this, { scales: null, shown: null, former: null, others: [], ring: null });
    new ResizeObserver(() => this.again()).observe(this.svg);
  }

  // Shows a design with the last good answer for it; a stale one is grey.
  show(shown) {
    this.shown = shown;
    const { design, answer, series, isStale } = shown;
    if (!this.handles.held) this.scales = this.scaled(design, answer, series);
    // The print has another size, to which the box is brought.
    this.svg.setAttribute("viewBox", `0 0 ${this.svg.clientWidth} ${this.svg.clientHeight}`);
    this.svg.classList.toggle("stale", isStale);
    this.drawAll();
    this.showHandles(design);
    legend(shown);
  }

  again() {
    if (this.shown) this.show(this.shown);
  }

  drawAll() {
    const { across, up, index } = this.scales;
    const box = { x: across.start, y: MARGIN.top, width: across.end - across.start, height: this.svg.clientHeight };
    for (const [name, value] of Object.entries(box)) this.clip.setAttribute(name, value);
    const inside = draw("g", { "clip-path": "url(#inside)" }, ...this.upper(), ...(index ? this.lower() : []), this.hairline());
    const axes = [axis(this, up, "width, mm")];
    if (index) axes.push(axis(this, index, "index, thousandths"));
    this.layer.replaceChildren(...axes, inside);
  }

  // Moves the handles alone: they follow the hand before the answer is there.
  showHandles(design) {
    this.handles.show(design, this.shown.answer.places, this.scales);
  }

  // Marks a ring that is read out.
  mark(ring) {
    this.ring = ring;
    if (this.shown) this.layer.querySelector(".hairline").replaceWith(this.hairline());
  }

  hairline() {
    const { across } = this.scales;
    const x = this.ring === null ? -1 : across.at(this.ring);
    return draw("line", { class: "hairline", x1: x, x2: x, y1: MARGIN.top, y2: this.svg.clientHeight - MARGIN.bottom });
  }

  // The ring at a pixel, from the left of the picture.
  ringAt(x) {
    return Math.round(this.scales.across.nearest(x));
  }

  // The number at a pixel where the hand is; beyond an edge the scale follows it.
  reach(kind, pixel) {
    const name = kind === "break" ? "across" : "up";
    const scale = this.scales[name].drawnOut(pixel, EDGE_SHARE);
    if (scale !== this.scales[name]) {
      this.scales = { ...this.scales, [name]: scale };
      if (kind === "break") this.view.drawnOut(scale);
      this.drawAll();
    }
    return scale.nearest(pixel);
  }

  bring(ring) {
    this.view.bring(ring);
    this.again();
  }

  scaled(design, answer, series) {
    const width = this.svg.clientWidth, height = this.svg.clientHeight;
    const firsts = series.map((each) => each.first), lasts = series.map((each) => each.first + each.widths.length - 1);
    const rings = [Math.min(design.breaks[0], ...firsts), Math.max(design.breaks.at(-1), ...lasts)];
    const across = new Scale(this.view.range(rings), [MARGIN.left, width - MARGIN.right]);
    const coefficients = woods(design).flatMap((wood) => design.pairs.map((_, row) => coefficient(design, row, wood)));
    const least = Math.min(0, answer.extent[0], ...coefficients);
    const most = Math.max(1, answer.extent[1], ...coefficients, ...[...series, ...this.others].map(widest));
    const floor = height - MARGIN.bottom;
    const below = series.length ? floor - height * INDEX_SHARE : floor;
    const foot = series.length ? below - MARGIN.between : floor - MARGIN.between / 2;
    const up = new Scale([least * HEADROOM, most * HEADROOM], [foot, MARGIN.top]);
    const indices = series.flatMap((each) => each.indices ?? []);
    const index = series.length ? new Scale([0, HEADROOM * Math.max(ON_CURVE, ...indices)], [floor, below]) : null;
    return { across, up, index };
  }

  cuts() {
    const { breaks, orders } = this.shown.answer.lists;
    return new Set(breaks.slice(1, -1).filter((_, join) => orders[join] === SCAR));
  }

  upper() {
    const { up } = this.scales;
    const { answer, series } = this.shown;
    return [
      ...breakLines(this, up, 2),
      ...this.others.map((each) => this.other(each)),
      ...this.rings(up, series, ({ widths }) => hidden(widths, (width) => width === 0)),
      ...series.map((each) => this.absent(each)),
      ...series.filter(({ faults }) => faults.length).map((each) => this.faults(each)),
      ...answer.curves.map(({ wood, low }) => this.low(wood, low)),
      ...answer.curves.map(({ wood }) => this.polygon(wood)),
      ...(this.former ?? []).map((each) => this.curve(each, "ghost", "data-ghost")),
      ...answer.curves.map((each) => this.curve(each, "curve", "data-curve")),
    ];
  }

  curve({ wood, pieces }, kind, named) {
    const { across, up } = this.scales;
    return draw("path", { class: `${kind} ${wood}`, [named]: wood, d: curvePath(pieces), transform: plane(across, up) });
  }

  lower() {
    const { across, index } = this.scales;
    const { series } = this.shown;
    const level = index.at(ON_CURVE);
    const one = { class: "one", x1: across.start, x2: across.end, y1: level, y2: level };
    return [
      ...breakLines(this, index, 0),
      draw("line", one),
      ...this.rings(index, series, ({ indices }) => hidden(indices ?? [], (each) => each < 0), "index"),
    ];
  }

  rings(up, series, heights, kind = "") {
    const { across } = this.scales;
    const step = 1 + Math.floor(DOT_PIXELS / across.factor);
    const cuts = this.cuts();
    return series.flatMap((each) => {
      const numbers = heights(each);
      const shared = { transform: plane(across, up), "data-series": each.wood };
      return [
        draw("path", { class: `rings ${kind} ${each.wood}`, d: ringPath(each.first, numbers, cuts), ...shared }),
        draw("path", { class: `dots ${kind} ${each.wood}`, d: dotPath(each.first, numbers, step), ...shared }),
      ];
    });
  }

  // Another series of the file, under all that is worked on.
  other({ name, first, widths }) {
    const { across, up } = this.scales;
    const path = ringPath(first, hidden(widths, (width) => width === 0), new Set());
    return draw("path", { class: "other", "data-other": name, d: path, transform: plane(across, up) }, draw("title", {}, name));
  }

  absent(series) {
    const { across, up } = this.scales;
    const y = up.at(0);
    const crosses = series.widths.map((width, place) => {
      const x = across.at(series.first + place);
      return width === 0 ? `M${x - CROSS} ${y - CROSS}l${2 * CROSS} ${2 * CROSS}m0 ${-2 * CROSS}l${-2 * CROSS} ${2 * CROSS}` : "";
    });
    return draw("path", { class: "absent", d: crosses.join("") });
  }

  // A ring around each measured ring that has no index.
  faults({ wood, first, widths, faults }) {
    const { across, up } = this.scales;
    const size = `a${FAULT_RADIUS} ${FAULT_RADIUS} 0 1 0`;
    const rings = faults.map((place) => {
      const start = `M${across.at(first + place) - FAULT_RADIUS} ${up.at(widths[place])}`;
      return `${start}${size} ${2 * FAULT_RADIUS} 0${size} ${-2 * FAULT_RADIUS} 0`;
    });
    return draw("path", { class: "fault-ring", "data-fault": wood, "data-count": faults.length, d: rings.join("") });
  }

  low(wood, places) {
    const { across, up } = this.scales;
    const y = up.at(0);
    const marks = places.map(([from, to]) => `M${across.at(from)} ${y}H${across.at(to)}`);
    return draw("path", { class: "low", "data-low": wood, d: marks.join("") });
  }

  // Straight lines from handle to handle, lifted at discontinuities.
  polygon(wood) {
    const { across, up } = this.scales;
    const { design, answer } = this.shown;
    const starts = new Set([0]);
    answer.rows.reduce((sum, rows) => starts.add(sum + rows) && sum + rows, 0);
    const points = answer.places.map((place, row) => {
      if (!(row in design.pairs)) return "";
      return `${starts.has(row) ? "M" : "L"}${place} ${coefficient(design, row, wood)}`;
    });
    return draw("path", { class: `polygon ${wood}`, d: points.join(""), transform: plane(across, up) });
  }
}
