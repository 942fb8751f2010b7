// A handle and its row in the table are marked together, by the focus or by the pointer on one of them.

const MARKED = "marked";
const OWN = /^(?:coefficient|break)-\d/;

// The control that an element of the page belongs to.
function controlOf(element) {
  const handle = element?.closest?.("[data-control]");
  if (handle) return handle.dataset.control;
  const input = element?.closest?.("tr")?.querySelector("input");
  const own = element?.closest?.("input") ?? input;
  return own && OWN.test(own.id) ? own.id : null;
}

const of = (control) => [
  ...document.querySelectorAll(`[data-control="${control}"]`),
  ...[document.getElementById(control)?.closest("tr")].filter(Boolean),
];

export class Marks {
  constructor() {
    Object.assign(this, { focused: null, pointed: null });
    document.addEventListener("focusin", ({ target }) => this.set("focused", controlOf(target)));
    document.addEventListener("focusout", () => this.set("focused", null));
    document.addEventListener("pointerover", ({ target }) => this.set("pointed", controlOf(target)));
  }

  set(by, control) {
    if (this[by] === control) return;
    this[by] = control;
    this.show();
  }

  show() {
    for (const element of document.querySelectorAll(`.${MARKED}`)) element.classList.remove(MARKED);
    for (const control of [this.focused, this.pointed]) {
      if (control) for (const element of of(control)) element.classList.add(MARKED);
    }
  }
}
