// The page: the present design, what the server has answered for it, and all that shows them. Every change of a design goes
// through `change`, so that the engine answers each.

import { showCloseness } from "./closeness.js";
import { Coefficients } from "./coefficients.js";
import { before, split, stretchAt, withBreak, withCoefficient, withoutJoin } from "./design.js";
import { finishTyping, found, isUsable, setUsable } from "./elements.js";
import { Files, showPositions } from "./files.js";
import { History } from "./history.js";
import { Kept } from "./kept.js";
import { listenToKeys } from "./keys.js";
import { Marks } from "./marks.js";
import { Picture } from "./picture.js";
import { showPromises } from "./promises.js";
import { Readout } from "./readout.js";
import { clearRefusals, showRefusal } from "./refusals.js";
import { Series } from "./series.js";
import { chosenShape, showShapes } from "./shapes.js";
import { ask, askOrRefuse, given, Newest, Refusal, Unreachable } from "./server.js";
import { hush, lostWords, say } from "./status.js";
import { Stretches } from "./stretches.js";
import { Work } from "./work.js";
import { Zoom } from "./zoom.js";

const start = await given();
const kept = new Kept(start.names);
const work = new Work(start.series.map(({ name }) => name), start.design);
const marks = new Marks();
const readout = new Readout();
let good = null; // the last design that was accepted, and its answer
let series = [];
let refusals = [];
let isGoing = false; // on the way to another series

const present = () => work.history.present;
const lasting = (design) => change(design, true);

const newest = new Newest("curve", onAnswer, onFailure);
const stretches = new Stretches(start.limits, lasting);
const coefficients = new Coefficients(lasting);
const choices = new Series(start.series, start.earliest, { change: lasting, whole: takeWhole, step: goOn });
const picture = new Picture(start.limits, {
  move: ({ kind, place, group }, value, isLasting) =>
    change(kind === "break" ? withBreak(present(), place, value) : withCoefficient(present(), place, group, value), isLasting),
  cancel: () => work.history.cancel() && askForPresent(),
  remove: (join) => lasting(withoutJoin(present(), join)),
});
new Zoom(picture, { onRead: read, onSplit: splitAt });
const files = new Files({
  design: present,
  designs: () => work.designs(),
  sheet: () => good?.answer.sheet,
  cares: () => choices.cares(),
  careful: (words) => say(words, "care"),
  saved: onSaved,
  failed: refused,
  opened: openSheet,
});

// Changes, and the server's answers to them.

function change(design, isLasting) {
  hush("done", "care", "failed", "refused-file");
  if (work.history.begun === null) picture.former = good?.answer.curves ?? null;
  work.history.change(design, isLasting);
  askForPresent();
}

function askForPresent() {
  showControls();
  if (good) picture.showHandles(present());
  readHandle(document.activeElement);
  newest.ask(present(), before(present()));
}

// The widths of the present design; the indices of the last good one stay where the curve is refused.
function withIndices(measured) {
  const same = (each) => ["wood", "name", "first"].every((key) => each[key] === measured[key]);
  const { indices = null, values = null, closeness = null, faults = [] } = good?.answer.series.find(same) ?? {};
  return { ...measured, indices, values, closeness, faults };
}

function accept(answer, asked) {
  const { breaks, orders } = asked;
  const design = { ...asked, pairs: answer.pairs, madeFor: null };
  good = { design, answer: { ...answer, lists: { breaks, orders } } };
  if (asked === present()) {
    work.history.adopt(design);
    if (!picture.handles.held) keep();
  }
}

function onAnswer(answer, asked, isNewest) {
  series = answer.refusal === null ? answer.series : answer.series.map(withIndices);
  if (answer.refusal === null) accept(answer, asked);
  refusals = [answer.refusal, ...answer.series.map((each) => each.refusal)].filter((each) => each !== null);
  const lost = lostWords(series, present().first === null);
  if (answer.refusal !== null) say(`Refused: ${answer.refusal.words} The last good curve stays, grey.`, "refused");
  else if (lost) say(lost, "lost");
  else if (isNewest) hush("refused", "lost", "gone");
  if (good) showAnswer(answer.refusal !== null);
  showControls();
}

function showAnswer(isStale) {
  const shown = { design: present(), answer: good.answer, series, isStale };
  picture.show(shown);
  readout.show(shown);
  showPromises(good.answer.promises);
  showCloseness(series);
}

// Nobody answers: the curve is grey, and what there is stays in this tab.
function onFailure(error) {
  keep();
  if (good) showAnswer(true);
  if (!(error instanceof Unreachable)) return say(error.message, "gone");
  const again = `start it again with --port ${location.port} and open its address in this tab`;
  return say(
    `The server does not answer (${error.message}). Is ./walzhik view still running? Your work is kept in this tab: ${again}. ` +
      "The button Sheet saves the last good curve meanwhile.",
    "gone",
  );
}

function keep() {
  if (good) kept.write({ present: present(), good: good.design, others: work.designs().slice(0, -1) });
}

function showControls() {
  const design = present();
  stretches.show(design);
  coefficients.show(design, good?.answer.places ?? []);
  choices.show(design, { before: work.neighbour(-1), after: work.neighbour(1), words: work.words() });
  showPositions(design.positions?.length ?? start.positions, design.at, (at) => lasting({ ...present(), at }));
  setUsable("undo", work.history.past.length > 0 || work.history.begun !== null);
  setUsable("redo", work.history.future.length > 0);
  markRefusals();
  marks.show();
}

function markRefusals() {
  clearRefusals();
  for (const each of refusals) {
    const words = showRefusal(each);
    const box = words.closest(".scroll");
    if (box) box.scrollTop = words.offsetTop - box.clientHeight / 2;
  }
}

function refused(error) {
  if (error instanceof Unreachable) return onFailure(error);
  if (!(error instanceof Refusal)) return say(error.message, "failed");
  refusals = [error.refusal];
  markRefusals();
  return say(`Refused: ${error.refusal.words}`, "refused-file");
}

// What the buttons and keys do.

const askFit = (design, isTemplate) =>
  ask("fit", { design, before: before(design), is_template: isTemplate, shape: chosenShape() });

async function propose(isTemplate) {
  const design = present();
  try {
    const answer = await askFit(design, isTemplate);
    if (answer.refusal) throw new Refusal({ ...answer.refusal, control: isTemplate ? "template" : "fit" });
    lasting(answer.design);
    say(answer.words);
  } catch (error) {
    refused(error);
  }
}

// The next series of the file: its own design, or a template that is fitted to it, or else the curve that is there.
async function goOn(step) {
  const unit = work.neighbour(step);
  if (unit === null || isGoing) return;
  isGoing = true;
  const at = present().at === "given" ? "none" : present().at;
  const design = { ...present(), at, series: { ...present().series, ...unit } };
  const names = Object.values(unit).join(" and ");
  try {
    const known = work.known(unit);
    const answer = known ? null : await askFit(design, true);
    picture.former = good?.answer.curves ?? null;
    work.go(known ?? new History(answer.refusal ? design : answer.design));
    say(answer?.refusal ? `${answer.refusal.words} The former curve stands beside ${names}.` : `Series ${names}.`);
    askForPresent();
    showOthers();
  } catch (error) {
    refused(error);
  } finally {
    isGoing = false;
  }
}

function takeWhole(design, wood, wereEqual) {
  lasting(design);
  if (!wereEqual) say(`The ${wood}'s curve is the whole ring's now. Undo brings both back.`);
}

function splitAt(ring) {
  const stretch = stretchAt(present(), ring);
  if (stretch >= 0) lasting(split(present(), stretch, ring));
}

async function openSheet(text, name) {
  try {
    const answer = await askOrRefuse("open", { design: present(), text });
    lasting(answer.design);
    work.noteSaved([present()]);
    say(`${name} is open. ${answer.words}`.trim());
  } catch (error) {
    refused(error);
  }
}

function onSaved(name, kind, designs) {
  if (kind === "sheet" || kind === "all") work.noteSaved(designs);
  if (kind === "kept") say(`The server does not answer: the browser saves the last good sheet as ${name}.`, "gone");
  else if (kind === "all") say(`The browser saves ${name} (designs: ${designs.length}).`);
  else say(`The browser saves ${name}.`);
}

function read(ring) {
  picture.mark(ring);
  readout.at(ring);
}

function readHandle({ handle }) {
  if (handle && good) read(Math.round(handle.ring));
}

async function showOthers() {
  const isWanted = found("others").checked;
  try {
    const answer = isWanted ? await ask("others", { design: present() }) : { others: [], left: 0 };
    picture.others = answer.others;
    picture.again();
    if (answer.left) say(`${answer.others.length} other series are shown, and ${answer.left} are not: they could not be told apart.`);
  } catch (error) {
    refused(error);
  }
}

// Undo in the middle of a drag gives the drag up.
function undo() {
  if (picture.handles.held) return picture.handles.cancel();
  picture.handles.finish();
  picture.former = good?.answer.curves ?? null;
  return work.history.undo() && askForPresent();
}

function redo() {
  if (picture.handles.held) return;
  picture.handles.finish();
  picture.former = good?.answer.curves ?? null;
  if (work.history.redo()) askForPresent();
}

// The start: what was given, and over it what was kept of earlier work with these files.

function restore() {
  const earlier = kept.read(start.series);
  if (!earlier) return;
  for (const design of earlier.others) work.put(new History(design));
  work.history.change(earlier.good, true);
  if (JSON.stringify(earlier.present) === JSON.stringify(earlier.good)) return;
  newest.ask(earlier.good, null);
  work.history.change(earlier.present, true);
}

found("names").textContent = start.names.join(", ");
document.title = ["Walzhik", ...start.names].join(" - ");
for (const [id, act] of Object.entries({ undo, redo, fit: () => propose(false), template: () => propose(true) })) {
  found(id).addEventListener("click", () => isUsable(found(id)) && act());
}
found("others").addEventListener("change", showOthers);
found("ghost").addEventListener("change", () => found("picture").classList.toggle("no-ghost", !found("ghost").checked));
found("picture").addEventListener("focusin", ({ target }) => readHandle(target));
found("picture").addEventListener("focusout", () => !picture.handles.held && read(null));
listenToKeys({ undo, redo, save: () => finishTyping() || files.save("sheet") });
addEventListener("beforeunload", (event) => work.isSaved || event.preventDefault());
showShapes(start.shapes);
restore();
say(start.words);
askForPresent();
