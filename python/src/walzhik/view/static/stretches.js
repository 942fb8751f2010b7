// The table of breakpoints, stretches and joins, in their order along the wood.

import { button, fill, found, make, number, rebuilt, select } from "./elements.js";
import { SCAR, split, withBreak, withDegree, withOrder, withoutJoin } from "./design.js";
import { notWhole, showRefusal, typedWhole } from "./refusals.js";

const ORDER_WORDS = { [SCAR]: "-1: scar", 0: "0: meets", 1: "1: slope", 2: "2: bend" };

const line = (head, kind, ...cells) =>
  make("tr", { class: kind }, make("th", { scope: "row" }, head), ...cells.map((each) => make("td", {}, each)));

export class Stretches {
  constructor(limits, onChange) {
    Object.assign(this, { limits, onChange, design: null });
  }

  breakpoint(place) {
    const input = number(`break-${place}`, `Breakpoint ${place}, ring`, this.design.breaks[place]);
    input.addEventListener("change", () => {
      const ring = typedWhole(input);
      if (ring === null) showRefusal(notWhole(input.id));
      else this.onChange(withBreak(this.design, place, ring));
    });
    return input;
  }

  chosen(id, label, options, value, change) {
    const made = select(id, label, options, value);
    made.addEventListener("change", () => this.onChange(change(Number(made.value))));
    return made;
  }

  stretch(place) {
    const degrees = this.limits.degrees.map((degree) => [degree, `degree ${degree}`]);
    const change = (degree) => withDegree(this.design, place, degree);
    const degree = this.chosen(`degree-${place}`, `Degree of stretch ${place}`, degrees, this.design.degrees[place], change);
    const cut = button({ "aria-label": `Split stretch ${place}` }, "Split", () => this.onChange(split(this.design, place)));
    return line(`Stretch ${place}`, "stretch", "", degree, cut);
  }

  join(place) {
    const orders = this.limits.orders.map((order) => [order, ORDER_WORDS[order]]);
    const change = (order) => withOrder(this.design, place, order);
    const order = this.chosen(`order-${place}`, `Order of join ${place}`, orders, this.design.orders[place], change);
    const drop = button({ "aria-label": `Remove join ${place}` }, "Remove", () => this.onChange(withoutJoin(this.design, place)));
    return line(`Join ${place}`, "join", this.breakpoint(place + 1), order, drop);
  }

  // Shows a design: anew where its lists have another length, else by the numbers alone, so that no control loses the focus.
  show(design) {
    const isSame = this.design && this.design.degrees.length === design.degrees.length;
    this.design = design;
    if (isSame) this.fill();
    else rebuilt(found("stretches"), () => this.build());
  }

  fill() {
    this.design.breaks.forEach((ring, place) => fill(`break-${place}`, ring));
    this.design.degrees.forEach((degree, place) => fill(`degree-${place}`, degree));
    this.design.orders.forEach((order, place) => fill(`order-${place}`, order));
  }

  build() {
    const head = make("tr", {}, ...["", "ring", "degree or order", ""].map((words) => make("th", { scope: "col" }, words)));
    const last = this.design.degrees.length;
    const lines = [line("Start", "join", this.breakpoint(0), "", "")];
    for (let place = 0; place < last; place += 1) {
      lines.push(this.stretch(place));
      if (place < last - 1) lines.push(this.join(place));
    }
    lines.push(line("End", "join", this.breakpoint(last), "", ""));
    found("stretches").replaceChildren(make("thead", {}, head), make("tbody", {}, ...lines));
  }
}
