// Keys that work everywhere on the page, with Ctrl or the command key.

export function listenToKeys({ undo, redo, save }) {
  const acts = { z: (event) => (event.shiftKey ? redo() : undo()), y: redo, s: save };
  document.addEventListener("keydown", (event) => {
    const act = event.ctrlKey || event.metaKey ? acts[event.key.toLowerCase()] : undefined;
    if (!act || event.altKey) return;
    event.preventDefault();
    act(event);
  });
}
