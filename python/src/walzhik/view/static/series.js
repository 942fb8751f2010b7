// Which series stand beside the curves, which ring their first width is, and the way from one series to the next.

import { areEqual, inParts, wholeRing, woods } from "./design.js";
import { button, field, fill, found, make, number, rebuilt, select, setUsable, woodWords } from "./elements.js";
import { notWhole, showRefusal, typedWhole } from "./refusals.js";

const NONE = "none"; // before the series' own numbers in a select
const EACH = "each", EARLIEST = "earliest"; // whose first width has the ring that is typed

export class Series {
  // `earliest` is the year that rings can be counted from for all series; `on` is told of a change of the design, and of a step to
  // another series.
  constructor(all, earliest, on) {
    Object.assign(this, { all, earliest, on, design: null });
  }

  chooser(wood) {
    const options = [[NONE, "no series"]];
    this.all.forEach(({ name, year, rings }, place) => options.push([place, `${name} (${year} to ${year + rings - 1})`]));
    const made = select(`series-${wood}`, null, options, NONE);
    made.addEventListener("change", () => {
      const name = made.value === NONE ? null : this.all[Number(made.value)].name;
      this.on.change({ ...this.design, series: { ...this.design.series, [wood]: name } });
    });
    return made;
  }

  firstRing() {
    const made = number("first", null, "");
    made.placeholder = "years";
    made.addEventListener("change", () => {
      const typed = typedWhole(made);
      if (made.value !== "" && typed === null) showRefusal(notWhole("first"));
      else this.on.change({ ...this.design, first: typed });
    });
    return made;
  }

  // Whose first width that is: each series' own, or that of the earliest one, from which the others keep their distance in years.
  countedFrom() {
    const options = [[EACH, "each series by itself"], [EARLIEST, `all by the earliest, from ${this.earliest}`]];
    const made = select("counted", null, options, EACH);
    made.addEventListener("change", () =>
      this.on.change({ ...this.design, earliest: made.value === EARLIEST ? this.earliest : null }));
    return made;
  }

  // From the whole ring to its parts, and back: by the curve of the part that is named.
  ways() {
    if (this.design.is_whole_ring) {
      return [button({ id: "parts" }, "A curve for each wood part", () => this.on.change(inParts(this.design)))];
    }
    const take = (wood) => this.on.whole(wholeRing(this.design, wood), wood, areEqual(this.design));
    return woods(this.design).map((wood) =>
      button({ id: `whole-${wood}` }, `Whole ring, by the ${wood}'s curve`, () => take(wood)));
  }

  steps() {
    if (this.all.length < 2) return [];
    const step = (id, words, by) => button({ id }, words, () => this.on.step(by));
    const steps = [step("previous", "Previous series", -1), step("next", "Next series", 1)];
    return [make("span", { class: "bar" }, ...steps), make("span", { id: "place", class: "soft" })];
  }

  build() {
    const fields = woods(this.design).map((wood) => field(`series, ${woodWords[wood]}`, this.chooser(wood)));
    fields.push(make("p", { id: "care", class: "care-words" }));
    fields.push(field("first width is ring", this.firstRing()));
    if (this.all.length > 1) fields.push(field("counted", this.countedFrom()));
    fields.push(make("span", { class: "field bar" }, ...this.ways()));
    fields.push(make("span", { class: "field bar" }, ...this.steps()));
    found("series").replaceChildren(...fields);
  }

  // Shows the choices of a design; they are made anew only where it has other curves.
  show(design, { before, after, words }) {
    const isSame = this.design?.is_whole_ring === design.is_whole_ring;
    this.design = design;
    if (!isSame) rebuilt(found("series"), () => this.build());
    for (const wood of woods(design)) {
      const place = this.all.findIndex(({ name }) => name === design.series[wood]);
      found(`series-${wood}`).value = place < 0 ? NONE : String(place);
    }
    fill("first", design.first ?? "");
    if (found("counted")) found("counted").value = (design.earliest ?? null) === null ? EACH : EARLIEST;
    found("care").textContent = this.cares().join(" ");
    if (!found("next")) return;
    setUsable("previous", before !== null);
    setUsable("next", after !== null);
    found("place").textContent = words;
  }

  // What is to be said of the names that are chosen, before they go into a table.
  cares() {
    const chosen = woods(this.design).map((wood) => this.design.series[wood]);
    return this.all.filter(({ name, care }) => care && chosen.includes(name)).map(({ care }) => care);
  }
}
