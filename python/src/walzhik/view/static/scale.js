// From rings and thousandths to pixels, and where round numbers stand on an axis.

export class Scale {
  constructor([from, to], [start, end]) {
    const width = to - from || 1;
    Object.assign(this, { from, to, start, end, factor: (end - start) / width });
    this.shift = start - from * this.factor;
  }

  at(number) {
    return this.shift + number * this.factor;
  }

  back(pixel) {
    return (pixel - this.shift) / this.factor;
  }

  // Whether a number is in sight, give or take some pixels.
  shows(number, pixels) {
    const [least, most] = [this.start, this.end].sort((one, other) => one - other);
    return this.at(number) >= least - pixels && this.at(number) <= most + pixels;
  }

  // The scale that a hand beyond one of its ends draws out, by a share of its range at most.
  drawnOut(pixel, share) {
    const number = this.back(pixel), step = share * (this.to - this.from);
    const from = Math.max(Math.min(this.from, number), this.from - step);
    const to = Math.min(Math.max(this.to, number), this.to + step);
    return from === this.from && to === this.to ? this : new Scale([from, to], [this.start, this.end]);
  }

  // The number at a pixel, or the end that it lies beyond.
  nearest(pixel) {
    return Math.min(Math.max(this.back(pixel), this.from), this.to);
  }

  // Round numbers, about as many as are asked for.
  ticks(most) {
    const least = (this.to - this.from) / most;
    let step = 10 ** Math.floor(Math.log10(Math.max(least, 1)));
    for (const times of [1, 2, 5, 10]) {
      if (times * step >= least) {
        step *= times;
        break;
      }
    }
    const first = Math.ceil(this.from / step) * step;
    const made = [];
    for (let tick = first; tick <= this.to; tick += step) made.push(tick);
    return made;
  }
}
