// What the engine promises of the curve, each sentence with a sign whether it holds here.

import { found, make } from "./elements.js";

export function showPromises(promises) {
  const lines = promises.map(({ words, holds }) => {
    const sign = make("span", { class: "sign", "aria-label": holds ? "holds" : "take care", role: "img" }, holds ? "✓" : "!");
    return make("li", { class: holds ? "holds" : "care" }, sign, make("span", {}, words));
  });
  found("promises").replaceChildren(...lines);
}
