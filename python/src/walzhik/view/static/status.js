// The line under the picture that says what has happened, for the eye and for a screen reader.

import { found } from "./elements.js";

let kind = "";

// Says words of a kind. The same words again are not said twice.
export function say(words, of = "done") {
  kind = words ? of : "";
  if (found("status").textContent !== words) found("status").textContent = words;
}

// Takes words of some kinds away.
export function hush(...kinds) {
  if (kinds.includes(kind)) say("");
}

const runs = (places) =>
  places.reduce((made, place) => {
    const last = made.at(-1);
    if (last && last[1] === place - 1) last[1] = place;
    else made.push([place, place]);
    return made;
  }, []);

// Which rings of the series have no index, and why; nothing where all have one.
export function lostWords(series, isYear) {
  const words = series.filter(({ refusal }) => refusal).map(({ name, first, widths, faults, refusal }) => {
    const spans = runs(faults).map(([from, to]) => (from === to ? `${first + from}` : `${first + from} to ${first + to}`));
    if (!faults.length) return `${name}: no ring has an index. ${refusal.words}`;
    const which = `${isYear ? "year" : "ring"} ${spans.join(", ")}`;
    return `${name}: ${faults.length} of ${widths.length} rings have no index (${which}). ${refusal.words}`;
  });
  return words.join(" ");
}
