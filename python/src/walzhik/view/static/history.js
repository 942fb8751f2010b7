// Undo and redo: the designs before and after the present one. A drag is one step, however often the hand moved.

// What of a design a sheet and its indices depend on.
const essence = ({ breaks, degrees, orders, pairs, is_whole_ring, series, first, earliest, at }) =>
  JSON.stringify([breaks, degrees, orders, pairs, is_whole_ring, series, first, earliest, at]);

export class History {
  constructor(design) {
    Object.assign(this, { past: [], present: design, future: [], begun: null, saved: essence(design) });
  }

  // A change that lasts is a step; one under the hand becomes a step when a lasting one follows.
  change(design, isLasting) {
    this.begun ??= this.present;
    this.present = design;
    if (!isLasting) return;
    if (essence(this.begun) !== essence(design)) {
      this.past.push(this.begun);
      this.future = [];
    }
    this.begun = null;
  }

  // What is under the hand is given up: the design before it is there again.
  cancel() {
    if (this.begun === null) return false;
    this.present = this.begun;
    this.begun = null;
    return true;
  }

  // The present design with what the server has made of it: no step of its own.
  adopt(design) {
    this.present = design;
  }

  undo() {
    if (this.cancel()) return true;
    if (!this.past.length) return false;
    this.future.push(this.present);
    this.present = this.past.pop();
    return true;
  }

  redo() {
    if (this.begun !== null || !this.future.length) return false;
    this.past.push(this.present);
    this.present = this.future.pop();
    return true;
  }

  noteSaved(design) {
    this.saved = essence(design);
  }

  get isSaved() {
    return essence(this.present) === this.saved;
  }
}
