// Which rings are in sight: all of them, or a part that is zoomed into and moved along.

const LEAST = 10; // rings in sight, at least: each is then many pixels wide

export class View {
  constructor() {
    Object.assign(this, { part: null, all: [0, 1] });
  }

  // The rings in sight, of all that there are.
  range(all) {
    this.all = all;
    if (this.part === null) return all;
    const width = Math.min(this.part[1] - this.part[0], all[1] - all[0]);
    const from = Math.min(Math.max(this.part[0], all[0]), all[1] - width);
    return [from, from + width];
  }

  set(from, width) {
    const [first, last] = this.all;
    const start = Math.min(Math.max(from, first), last - width);
    this.part = width >= last - first ? null : [start, start + width];
  }

  // Rings become wider by a factor about one of them, which stays where it is.
  zoom(factor, about) {
    const [from, to] = this.range(this.all);
    const width = Math.min(Math.max((to - from) / factor, LEAST), Math.max(this.all[1] - this.all[0], LEAST));
    const ring = about ?? (from + to) / 2;
    this.set(ring - ((ring - from) / (to - from)) * width, width);
  }

  // The part in sight goes on by a share of its width.
  move(share) {
    const [from, to] = this.range(this.all);
    if (this.part) this.set(from + share * (to - from), to - from);
  }

  // Brings a ring into sight.
  bring(ring) {
    const [from, to] = this.range(this.all);
    if (this.part && (ring < from || ring > to)) this.set(ring - (to - from) / 2, to - from);
  }

  // A hand has drawn the scale out: its rings are in sight from now on.
  drawnOut({ from, to }) {
    if (this.part) this.part = [from, to];
  }
}
