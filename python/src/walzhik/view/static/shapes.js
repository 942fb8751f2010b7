// The shape of a fit, where the server offers a choice, with what is proved of each.

import { field, found, select } from "./elements.js";

export function showShapes(shapes) {
  if (shapes.length) found("shapes").replaceChildren(field("shape of the fit", select("shape", null, shapes, shapes[0][0])));
}

export const chosenShape = () => found("shape")?.value ?? null;
