// The table of coefficients: a row for each, with the ring near which its handle stands.

import { fill, found, make, number, rebuilt, woodWords } from "./elements.js";
import { coefficient, withCoefficient, woods } from "./design.js";
import { notWhole, showRefusal, typedWhole } from "./refusals.js";

const TENTHS = 1;

export class Coefficients {
  constructor(onChange) {
    Object.assign(this, { onChange, design: null, shape: "" });
  }

  input(row, wood) {
    const id = `coefficient-${row}-${wood}`;
    const made = number(id, `Coefficient ${row}, ${woodWords[wood]}`, coefficient(this.design, row, wood));
    made.addEventListener("change", () => {
      const value = typedWhole(made);
      if (value === null) showRefusal(notWhole(id));
      else this.onChange(withCoefficient(this.design, row, wood, value));
    });
    return make("td", {}, made);
  }

  // Shows a design, anew where it has another number of coefficients; the places are those of the last accepted curve.
  show(design, places) {
    const shape = `${design.pairs.length} ${design.is_whole_ring}`;
    const isSame = shape === this.shape;
    Object.assign(this, { design, shape });
    if (!isSame) rebuilt(found("rows"), () => this.build());
    design.pairs.forEach((_, row) => {
      found(`place-${row}`).textContent = row in places ? places[row].toFixed(TENTHS) : "";
      for (const wood of woods(design)) fill(`coefficient-${row}-${wood}`, coefficient(design, row, wood));
    });
  }

  build() {
    const names = ["", "near ring", ...woods(this.design).map((wood) => woodWords[wood])];
    const head = make("tr", {}, ...names.map((words) => make("th", { scope: "col" }, words)));
    const rows = this.design.pairs.map((_, row) => {
      const cells = woods(this.design).map((wood) => this.input(row, wood));
      return make("tr", {}, make("th", { scope: "row" }, `${row}`), make("td", { id: `place-${row}` }), ...cells);
    });
    found("rows").replaceChildren(make("thead", {}, head), make("tbody", {}, ...rows));
  }
}
