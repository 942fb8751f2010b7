// A design for each series of the file, or for each pair of wood parts, with a history of its own. The one that is worked on is
// `history`.

import { woods } from "./design.js";
import { History } from "./history.js";

// Pairs of series whose names differ as those of the two that are chosen: ROOF04E and ROOF04L, ROOF05E and ROOF05L.
function pairs(names, early, late) {
  const at = [...early].findIndex((letter, place) => letter !== late[place]);
  if (early.length !== late.length || at < 0 || early.slice(at + 1) !== late.slice(at + 1)) return [];
  const behind = early.length - at - 1; // letters: names of other lengths end alike
  const place = (name) => name.length - behind - 1;
  const partner = (name) => name.slice(0, place(name)) + late[at] + name.slice(place(name) + 1);
  const own = names.filter((name) => name[place(name)] === early[at] && names.includes(partner(name)));
  return own.map((name) => ({ earlywood: name, latewood: partner(name) }));
}

const key = (series, parts) => JSON.stringify(parts.map((wood) => series[wood] ?? null));

export class Work {
  constructor(names, design) {
    Object.assign(this, { names, history: new History(design), histories: new Map() });
  }

  // What can be worked on one after the other: the series, or the pairs of wood parts.
  units({ is_whole_ring, series }) {
    if (is_whole_ring) return this.names.map((ring) => ({ ring }));
    return series.earlywood && series.latewood ? pairs(this.names, series.earlywood, series.latewood) : [];
  }

  keyOf(design) {
    return key(design.series, woods(design));
  }

  place(design) {
    return this.units(design).findIndex((unit) => key(unit, woods(design)) === this.keyOf(design));
  }

  // The series so many places further on; null where there are none.
  neighbour(step) {
    const { present } = this.history;
    const place = this.place(present);
    return place < 0 ? null : this.units(present)[place + step] ?? null;
  }

  // The design of a neighbour, where it has one.
  known(unit) {
    return this.histories.get(key(unit, Object.keys(unit))) ?? null;
  }

  // Leaves the present series for others. Where somebody has put the curve beside a series that had a design, that one is behind it.
  go(history) {
    this.put(this.history);
    this.history = history;
  }

  put(history) {
    const own = this.keyOf(history.present);
    const before = this.histories.get(own);
    if (before && before !== history) history.past.unshift(before.present);
    for (const [name, each] of this.histories) if (each === history) this.histories.delete(name);
    this.histories.set(own, history);
  }

  all() {
    const own = this.keyOf(this.history.present);
    const others = [...this.histories.values()].filter((each) => each !== this.history && this.keyOf(each.present) !== own);
    return [...others, this.history];
  }

  // The present designs of all series that have one, that which is worked on as the last.
  designs() {
    return this.all().map(({ present }) => present);
  }

  // Where the present series stand among those that can be worked on; an empty text where they stand alone.
  words() {
    const { present } = this.history;
    const units = this.units(present);
    const place = this.place(present);
    const what = present.is_whole_ring ? "" : "pair ";
    if (place < 0 || units.length < 2) return "";
    return `${what}${place + 1} of ${units.length}, ${this.designs().length} with a design`;
  }

  get isSaved() {
    return this.all().every((history) => history.isSaved);
  }

  noteSaved(designs) {
    for (const history of this.all()) if (designs.includes(history.present)) history.noteSaved(history.present);
  }
}
