// What each line and mark of the picture is.

import { found, make, woodWords } from "./elements.js";
import { SCAR } from "./design.js";

export function legend({ answer, series, design, isStale }) {
  const entries = answer.curves.map(({ wood }) =>
    [`line ${wood} ${isStale ? "old" : ""}`, `curve, ${woodWords[wood]}${isStale ? " (the last good one)" : ""}`]);
  for (const each of series) entries.push([`dot ${each.wood}`, each.name]);
  if (design.orders.some((order) => order !== SCAR)) entries.push(["join", "join"]);
  if (design.orders.includes(SCAR)) entries.push(["scar", "scar"]);
  if (series.some(({ widths }) => widths.includes(0))) entries.push(["cross", "absent ring"]);
  if (series.some(({ faults }) => faults.length)) entries.push(["lost", "ring without an index"]);
  if (answer.curves.some(({ low }) => low.length)) entries.push(["low", "low"]);
  const items = entries.map(([kind, words]) => make("li", {}, make("span", { class: `swatch ${kind}` }), words));
  found("legend").replaceChildren(...items);
}
