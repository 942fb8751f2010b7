// Files for the browser to save: the sheet, the printout, indices and pictures, as the server makes them; and a sheet to open.

import { before } from "./design.js";
import { button, field, found, make, select } from "./elements.js";
import { askFile, Unreachable } from "./server.js";

const KINDS = [
  ["sheet", "Sheet"],
  ["printout", "Printout"],
  ["csv", "Indices, CSV"],
  ["rwl", "Indices, Tucson"],
  ["svg", "Picture, SVG"],
  ["png", "Picture, PNG"],
];
const KEPT = "kept.sheet"; // the name of a sheet that is saved without the server

function save({ name, blob }) {
  const address = URL.createObjectURL(blob);
  const link = make("a", { href: address, download: name });
  document.body.append(link);
  link.click();
  link.remove();
  URL.revokeObjectURL(address);
  return name;
}

export class Files {
  // `on` gives the present design, all designs, the last good sheet's text and what is to be said of names, and is told what was
  // saved or failed.
  constructor(on) {
    Object.assign(this, { on, warned: null });
    const buttons = KINDS.map(([kind, words]) => button({ id: `save-${kind}` }, words, () => this.save(kind)));
    buttons[0].setAttribute("aria-keyshortcuts", "Control+S");
    buttons.push(button({ id: "save-all" }, "All designs, ZIP", () => this.saveAll()));
    const input = make("input", { type: "file", id: "open", accept: ".sheet,.txt" });
    input.addEventListener("change", () => this.open(input));
    found("downloads").replaceChildren(...buttons);
    found("opening").replaceChildren(field("open a sheet", input));
  }

  // A table with a name that a spreadsheet would compute is saved at the second time of asking.
  async save(kind) {
    const design = this.on.design();
    const care = kind === "csv" ? this.on.cares().join(" ") : "";
    if (care && this.warned !== care) {
      this.warned = care;
      return this.on.careful(`${care} Press again to save the table all the same.`);
    }
    try {
      return this.on.saved(save(await askFile(`download/${kind}`, { design, before: before(design) })), kind, [design]);
    } catch (error) {
      if (kind === "sheet" && error instanceof Unreachable && this.on.sheet()) return this.saveKept();
      return this.on.failed(error);
    }
  }

  // The server is gone: the text of the last good sheet is still here.
  saveKept() {
    const blob = new Blob([this.on.sheet()], { type: "text/plain" });
    return this.on.saved(save({ name: KEPT, blob }), "kept", []);
  }

  async saveAll() {
    const designs = this.on.designs();
    try {
      const asked = designs.map((design) => ({ design, before: before(design) }));
      return this.on.saved(save(await askFile("all", { designs: asked })), "all", designs);
    } catch (error) {
      return this.on.failed(error);
    }
  }

  // Each byte of the file becomes a character, so that the program reads what the file has.
  async open(input) {
    const [file] = input.files;
    if (!file) return;
    const bytes = new Uint8Array(await file.arrayBuffer());
    input.value = "";
    this.on.opened(Array.from(bytes, (byte) => String.fromCharCode(byte)).join(""), file.name);
  }
}

// Which positions the sheet lists; those of the given sheet only where it lists some.
export function showPositions(count, at, onChange) {
  const options = [["none", "none"], ["rings", "every ring"]];
  if (count) options.push(["given", `the ${count} of the given sheet`]);
  if (found("at")?.dataset.count !== String(count)) {
    const made = select("at", null, options, "none");
    made.dataset.count = count;
    made.addEventListener("change", () => onChange(made.value));
    found("positions").replaceChildren(field("positions in the sheet (at=)", made));
  }
  found("at").value = at;
}
