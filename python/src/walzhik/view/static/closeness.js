// How close the curve is to the measured widths, as the server says it of the engine's values: it follows the hand.

import { found, make } from "./elements.js";

const DECIMALS = 4;
const PERCENT = 100;

function words({ name, widths, closeness }) {
  if (closeness === null) return `${name}: no ring has a curve.`;
  const { rings, root_mean_square, share } = closeness;
  const present = widths.filter((width) => width !== 0).length;
  const of = rings < present ? ` over ${rings} of ${present} rings` : "";
  const explained = share === null ? "all widths are equal" : `${(PERCENT * share).toFixed(1).replace(/^-0\.0$/, "0.0")} % explained`;
  return `${name}: root mean square ${root_mean_square.toFixed(DECIMALS)} mm, ${explained}${of}.`;
}

export function showCloseness(series) {
  found("closeness").replaceChildren(...series.map((each) => make("li", { class: each.wood }, words(each))));
}
