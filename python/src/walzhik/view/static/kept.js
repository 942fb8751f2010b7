// The copy of the work in the tab's own store, by the names of the files: it outlives a reload, and a server that is gone.

export class Kept {
  constructor(names) {
    this.name = `walzhik ${JSON.stringify(names)}`;
  }

  write(work) {
    try {
      sessionStorage.setItem(this.name, JSON.stringify(work));
    } catch {
      // A store that is full or forbidden keeps nothing; the sheet can still be saved.
    }
  }

  // What was kept, of the series that are still there; null where there is nothing.
  read(series) {
    try {
      const work = JSON.parse(sessionStorage.getItem(this.name));
      const [present, good, ...others] = [work.present, work.good, ...work.others].map((each) => known(each, series));
      return { present, good, others };
    } catch {
      return null;
    }
  }
}

function known(design, series) {
  if (!Array.isArray(design.breaks) || !Array.isArray(design.pairs)) throw new TypeError("no design");
  const names = new Set(series.map(({ name }) => name));
  const kept = Object.entries(design.series).map(([wood, name]) => [wood, names.has(name) ? name : null]);
  return { ...design, series: Object.fromEntries(kept) };
}
