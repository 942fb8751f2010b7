// Path data in rings and thousandths of a millimetre, with the very numbers that the server has sent; a transform brings them to
// pixels.

const COMMANDS = { 1: "L", 2: "Q", 3: "C" }; // by degree; points of a higher degree lie on the curve itself
const DOT = "h0.01"; // short enough for a dot, long enough to be drawn in print

const point = ([ring, height]) => `${ring} ${height}`;

// A curve from its pieces: a new start at each discontinuity, one command a piece of degree 1 to 3.
export function curvePath(pieces) {
  const words = [];
  for (const { degree, is_apart, points } of pieces) {
    if (is_apart) words.push(`M${point(points[0])}`);
    const rest = points.slice(1).map(point);
    if (degree in COMMANDS) words.push(COMMANDS[degree] + rest.join(" "));
    else words.push(...rest.map((each) => `L${each}`));
  }
  return words.join("");
}

// A line through the numbers of consecutive rings, lifted where one is missing and behind each cut.
export function ringPath(first, heights, cuts) {
  let isDown = false;
  const words = [];
  heights.forEach((height, place) => {
    const ring = first + place;
    if (height !== null) words.push(`${isDown ? "L" : "M"}${ring} ${height}`);
    isDown = height !== null && !cuts.has(ring);
  });
  return words.join("");
}

// A dot for each ring, or for every second, fifth and so on.
export function dotPath(first, heights, step) {
  const words = [];
  heights.forEach((height, place) => {
    if (height !== null && (first + place) % step === 0) words.push(`M${first + place} ${height}${DOT}`);
  });
  return words.join("");
}
