// Handles that would lie over each other stand side by side, in their order: so each can be seen and reached.

const NEAR = 9; // pixels between middles: nearer ones lie over each other
const APART = 14; // pixels between those that are spread

const isNear = (one, other) => Math.abs(one.x - other.x) < NEAR && Math.abs(one.y - other.y) < NEAR;

// How far each spot is moved sideways, in pixels, by spot; those that stay are left out.
export function spread(spots) {
  const ranked = spots.toSorted((one, other) => one.x - other.x);
  const shifts = new Map();
  const taken = new Set();
  ranked.forEach((spot, place) => {
    if (taken.has(spot)) return;
    const heap = [spot];
    for (let next = place + 1; next < ranked.length && ranked[next].x - spot.x < NEAR; next += 1) {
      if (!taken.has(ranked[next]) && isNear(spot, ranked[next])) heap.push(ranked[next]);
    }
    if (heap.length === 1) return;
    heap.sort((one, other) => spots.indexOf(one) - spots.indexOf(other));
    heap.forEach((each, rank) => {
      taken.add(each);
      shifts.set(each, (rank - (heap.length - 1) / 2) * APART);
    });
  });
  return shifts;
}
