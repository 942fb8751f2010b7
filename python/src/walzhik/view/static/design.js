// Changes of a design, each giving a new one. Whether the engine takes it is not asked here.

const put = (list, place, value) => list.map((each, at) => (at === place ? value : each));

export const SCAR = -1;
const SMOOTH = 1; // the order of a new join, where the degree allows it

// A design with other stretches or joins has still the coefficients of the lists before, and remembers these: the server carries
// the curve over.
function restructured(design, lists) {
  const { breaks, degrees, orders } = design;
  return { ...design, ...lists, madeFor: design.madeFor ?? { breaks, degrees, orders } };
}

// The design whose coefficients a design has, where these are not yet its own.
export const before = ({ madeFor = null, ...design }) => madeFor && { ...design, ...madeFor };

export const withBreak = (design, place, ring) => ({ ...design, breaks: put(design.breaks, place, ring) });

export const withDegree = (design, stretch, degree) =>
  restructured(design, { degrees: put(design.degrees, stretch, degree) });

export const withOrder = (design, join, order) => restructured(design, { orders: put(design.orders, join, order) });

// The sides of a pair that a curve's coefficient stands on: both for the whole ring.
const sides = { ring: [0, 1], earlywood: [0], latewood: [1] };

export const coefficient = (design, row, wood) => design.pairs[row][sides[wood][0]];

export function withCoefficient(design, row, wood, value) {
  const pair = design.pairs[row].map((each, side) => (sides[wood].includes(side) ? value : each));
  return { ...design, pairs: put(design.pairs, row, pair) };
}

export const woods = (design) => (design.is_whole_ring ? ["ring"] : ["earlywood", "latewood"]);

// The rings between which a breakpoint can stand: its neighbours stop it.
export function room(design, place, most) {
  return [(design.breaks[place - 1] ?? -most - 1) + 1, (design.breaks[place + 1] ?? most + 1) - 1];
}

// The stretch that a ring lies within, or none for a breakpoint and for rings outside.
export const stretchAt = (design, ring) =>
  design.degrees.findIndex((_, place) => design.breaks[place] < ring && ring < design.breaks[place + 1]);

export const middle = (design, stretch) => Math.floor((design.breaks[stretch] + design.breaks[stretch + 1]) / 2);

// A breakpoint within a stretch.
export function split(design, stretch, ring = middle(design, stretch)) {
  const degree = design.degrees[stretch];
  return restructured(design, {
    breaks: design.breaks.toSpliced(stretch + 1, 0, ring),
    degrees: design.degrees.toSpliced(stretch, 0, degree),
    orders: design.orders.toSpliced(stretch, 0, Math.min(SMOOTH, degree - 1)),
  });
}

// Two stretches become one, of the higher degree.
export function withoutJoin(design, join) {
  const degree = Math.max(design.degrees[join], design.degrees[join + 1]);
  return restructured(design, {
    breaks: design.breaks.toSpliced(join + 1, 1),
    degrees: design.degrees.toSpliced(join, 2, degree),
    orders: design.orders.toSpliced(join, 1),
  });
}

// A curve for each wood part, both the whole ring's at first.
export const inParts = (design) => ({ ...design, is_whole_ring: false });

// One curve for the whole ring: that of a wood part, beside the series that was there before, or else the part's.
export function wholeRing(design, wood) {
  const [side] = sides[wood];
  const pairs = design.pairs.map((pair) => [pair[side], pair[side]]);
  const series = { ...design.series, ring: design.series.ring ?? design.series[wood] };
  return { ...design, pairs, series, is_whole_ring: true };
}

export const areEqual = (design) => design.pairs.every(([early, late]) => early === late);
