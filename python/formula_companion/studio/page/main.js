// The page: takes its parts together. Each change of the text is played by the program, and what comes back is shown.
import { Axis } from "./axis.js";
import { defineColours } from "./colours.js";
import { element, Writing } from "./editor.js";
import { byId, Files } from "./files.js";
import { Lanes } from "./lanes.js";
import { corrected, read, seconds } from "./midi.js";
import { Mixer } from "./mixer.js";
import { Palette } from "./palette.js";
import { nameOf, Roll } from "./roll.js";
import { Session } from "./session.js";
import { Sound } from "./sound.js";
import { Tempo } from "./tempo.js";

/** Files up to so many bytes are read at once, longer ones aside. */
const SHORT = 2_000_000;
/** How long the page waits for the next keystroke, in ms: hardly, but for texts that take long. */
const PAUSE = 10, LONG_PAUSE = 250;

/** @type {import("./files.js").About & {colours: string[], darker: {[light: string]: string}, silent: string}} */
const about = await (await fetch("about")).json();
defineColours(await (await fetch("page/formula.tmLanguage.json")).json());

const told = byId("told", HTMLParagraphElement);
const meter = byId("meter", HTMLInputElement), upbeat = byId("upbeat", HTMLInputElement);
const fromBar = byId("from-bar", HTMLInputElement), toBar = byId("to-bar", HTMLInputElement);
const loop = byId("loop", HTMLInputElement), play = byId("play", HTMLButtonElement);
const rollHome = byId("roll", HTMLDivElement), seeing = byId("seeing", HTMLElement);

const tell = (/** @type {string} */ words) => { told.textContent = words; };
const counted = () => ({ meter: meter.value, upbeat: upbeat.value });

// ---- the parts

const axis = new Axis(), palette = new Palette(about.colours, about.darker);
const session = new Session(take, () => tell("the studio has ended: start it again"));
/** @type {Writing} */
const writing = new Writing(byId("editor", HTMLDivElement), byId("refusal", HTMLDivElement),
  byId("problems", HTMLUListElement), (what, more) => session.ask(what, more), () => files.save());
/** @type {Files} */
const files = new Files(about, { text: () => writing.text, show: (text) => writing.open(text, files.isPython), tell,
  saved: () => { if (files.isPython && files.version !== null) session.run(files.name, files.version, meter.value, upbeat.value); } });
const sound = new Sound(about.silent, tell, transport);
const mixer = new Mixer(byId("mixer", HTMLDivElement), () => {
  sound.choice = mixer.isWhole ? "" : mixer.state;
  sound.again();
  roll.draw();
});
const isHeard = (/** @type {number} */ event) =>
  mixer.hears(roll.piece ? roll.piece.messages[3 * event] & 15 : 0, roll.processes ? roll.processes[event] : 0);
sound.isHeard = isHeard;
/** @type {Roll} */
const roll = new Roll(rollHome, axis, palette, {
  pointed: (note) => facts(note < 0 ? roll.chosen : note),
  chosen: (note) => facts(note),
  selected: (from, to) => { fromBar.value = String(from); toBar.value = String(to); selected(); },
  seek: (tick) => { if (roll.piece) sound.seek(seconds(roll.piece, tick)).then(follow); },
  key: (key) => key in keys && (keys[key](), true),
  isFaint: (event) => !mixer.isWhole && !isHeard(event),
});
const lanes = new Lanes(byId("lanes", HTMLDivElement), axis, palette, chooseProcess, () => roll.byProcess);
const tempo = new Tempo(byId("tempo", HTMLDivElement), axis, palette);

const keys = /** @type {{[key: string]: () => void}} */ ({
  " ": () => play.click(), Enter: () => goToText(roll.chosen), l: () => loop.click(),
  Escape: () => { fromBar.value = toBar.value = ""; selected(); },
});

// ---- from a keystroke to the picture

let changed = 0, timer = 0, slowest = 0;
/** How long each picture took, and each margin, in ms from the keystroke.
 * @type {number[]} */
const times = [];
/** @type {number[]} */
const margins = [];
/** @type {{lines: Int32Array, characters: Int32Array, happenings: Int32Array} | null} */
let places = null;
/** @type {Worker | null} */
let reader = null;

writing.editor.on("change", () => {
  changed = performance.now();
  files.told();
  clearTimeout(timer);
  timer = window.setTimeout(send, slowest > 400 ? LONG_PAUSE : PAUSE);
});

function send() {
  if (!files.isPython) session.play(writing.text, meter.value, upbeat.value);
  else if (files.isChanged) check();
}

/** What is found in the score of a Python file, which is shown where its words are well.
 * @type {import("./editor.js").Problem[]} */
let foundInPython = [];

/** Tells what is wrong with the words of a Python file, which is not run. */
async function check() {
  const { problems } = await session.ask("check", { name: files.name, text: writing.text });
  writing.show(problems.length ? problems : foundInPython);
}

/** Says how long a Python file runs, until it is through. */
function running() {
  const button = byId("end", HTMLButtonElement), begun = performance.now();
  clearInterval(runs);
  button.hidden = false;
  runs = window.setInterval(() => tell(`${files.name} runs: ${Math.round((performance.now() - begun) / 1000)} s`), 1000);
}

let runs = 0;

/** A Python file is through. */
function through() {
  clearInterval(runs);
  byId("end", HTMLButtonElement).hidden = true;
}

/** Takes what the server says of a text.
 * @param {import("./session.js").Head} head @param {ArrayBuffer} body */
function take(head, body) {
  if (head.number !== session.number) return;  // a newer text is on its way
  if (head.kind === "running") return running();
  through();
  if (head.printed) tell(head.printed);
  if (head.kind === "made") files.made = new TextDecoder().decode(body);
  if (head.failed) return takeFailure(head);
  if (head.kind === "file") takeFile(head, body);
  if (head.kind === "problems") takeProblems(head);
  if (head.kind === "picture") takePicture(head, body);
  if (head.kind === "bars") takeBars(head);
}

let failing = false;

/** Takes words away that told why something failed, which holds no longer. */
function holds() {
  if (failing) tell("");
  failing = false;
}

/** Shows the file alone, where the companion has nothing to say of it.
 * @param {import("./session.js").Head} head */
function takeFailure(head) {
  tell(head.failed || "");
  failing = true;
  if (head.kind === "failed") {  // there is no file of this text
    writing.show([]);
    seeing.classList.add("stale");
    measured();
  }
  if (head.kind === "picture") lanes.show([]);
  if (head.kind === "bars") {
    roll.bars = null;
    selected();
  }
}

/** @param {import("./session.js").Head} head @param {ArrayBuffer} body */
function takeFile(head, body) {
  const file = new Uint8Array(body);
  if (reader) reader.terminate();
  reader = null;
  if (file.length <= SHORT) return showPiece(read(file), file);
  const number = head.number;
  reader = new Worker("page/reader.js", { type: "module" });
  reader.onmessage = (event) => { if (number === session.number) showPiece(event.data, file); };
  reader.postMessage(body);
}

/** @param {import("./midi.js").Piece} piece @param {Uint8Array} file */
function showPiece(piece, file) {
  holds();
  writing.accept();
  seeing.classList.remove("stale");
  places = null;
  roll.processes = null;
  roll.show(piece);
  facts(-1);
  sound.show(piece, file);
  mixer.show(piece.channels.map((channel) => `channel ${channel}`));
  rollHome.setAttribute("aria-label", roll.words);
  measured();
  if (later) later();
}

/** @type {(() => void) | null} what waits for the piece to be shown */
let later = null;

/** @param {import("./session.js").Head} head @param {ArrayBuffer} body */
function takePicture(head, body) {
  if (reader && !(roll.piece && roll.piece.ticks.length === head.events)) {
    later = () => { later = null; takePicture(head, body); };
    return;
  }
  const { events, happenings } = head;
  const column = (/** @type {number} */ at, /** @type {number} */ length) => new Int32Array(body, 4 * at, length);
  roll.processes = column(0, events);
  places = { happenings: column(events, events), lines: column(3 * events, happenings),
    characters: column(3 * events + happenings, happenings) };
  if (roll.piece) corrected(roll.piece, column(2 * events, events));
  roll.draw();
  lanes.show(head.processes);
  if (roll.chosen >= 0) facts(roll.chosen);
}

/** @param {import("./session.js").Head} head */
function takeBars(head) {
  roll.bars = { bars: head.bars, beats: head.beats, first: head.first, last: head.last };
  rollHome.setAttribute("aria-label", roll.words);
  selected();
}

/** @param {import("./session.js").Head} head */
function takeProblems(head) {
  writing.show(head.problems);
  foundInPython = head.problems;
  const begun = changed;
  requestAnimationFrame(() => margins.push(performance.now() - begun));
  if (!head.problems.some((/** @type {import("./editor.js").Problem} */ each) => each.severity === "error")) return;
  holds();
  seeing.classList.add("stale");
  measured();
}

function measured() {
  const begun = changed;
  requestAnimationFrame(() => {
    const took = performance.now() - begun;
    times.push(took);
    slowest = Math.max(took, slowest * 0.7);
  });
}

// ---- the note and the process that are chosen

let factsOf = -1;
/** @type {{lines: Int32Array, characters: Int32Array, happenings: Int32Array} | null} */
let placesOf = places;

/** Tells what is known of a note: at once what the file says, then what the score says.
 * @param {number} note */
async function facts(note) {
  if (note === factsOf && places === placesOf) return;
  factsOf = note;
  placesOf = places;
  const home = byId("facts", HTMLElement);
  if (note < 0 || !roll.piece) return home.replaceChildren();
  const event = roll.piece.notes[note], { ticks, messages, ends } = roll.piece;
  const [status, key, velocity] = messages.subarray(3 * event, 3 * event + 3);
  const show = (/** @type {string[][]} */ rows) =>
    home.replaceChildren(...rows.flatMap(([name, words]) => [element("dt", name), element("dd", words)]));
  if (!places) {
    return show([["Note", `${nameOf(key)}, key ${key}, velocity ${velocity}, channel ${status & 15}`],
      ["Begins", `tick ${ticks[event]}, ${seconds(roll.piece, ticks[event]).toFixed(3)} s`],
      ["Ends", `tick ${ends[note]}, ${seconds(roll.piece, ends[note]).toFixed(3)} s`]]);
  }
  const answer = await session.ask("facts", { event, ...counted() });
  if (answer.facts) show(answer.facts);
}

/** @param {number} note */
function goToText(note) {
  if (note < 0 || !places || !roll.piece) return;
  const happening = places.happenings[roll.piece.notes[note]];
  writing.go(places.lines[happening], places.characters[happening]);
}

/** @param {number} process */
async function chooseProcess(process) {
  if (!roll.piece) return;
  mixer.show([...roll.piece.channels.map((channel) => `channel ${channel}`), `process ${process}`]);
  tempo.show(process, null);
  const { curves } = await session.ask("curves", { process });
  if (curves) tempo.show(process, curves);
}

// ---- bars

/** Takes the bars that are selected: the sound loops over them, and they can be cut out. */
function selected() {
  const window = selectedTicks();
  roll.selection = window;
  sound.loop = window && loop.checked && roll.piece
    ? { from: seconds(roll.piece, window.from), to: seconds(roll.piece, window.to) } : null;
  sound.again();
  roll.draw();
}

function selectedTicks() {
  const from = parseInt(fromBar.value, 10), to = parseInt(toBar.value || fromBar.value, 10);
  if (!roll.bars || Number.isNaN(from) || Number.isNaN(to) || to < from) return null;
  const begin = roll.bars.bars.find(([, bar]) => bar === from);
  const end = roll.bars.bars.find(([, bar]) => bar === to + 1) || roll.bars.bars[roll.bars.bars.length - 1];
  return begin && end && end[0] > begin[0] ? { from: begin[0], to: end[0] } : null;
}

for (const input of [fromBar, toBar, loop]) input.addEventListener("change", selected);
for (const input of [meter, upbeat]) input.addEventListener("change", async () => {
  const answer = await session.ask("bars", counted());
  if (answer.failed) tell(answer.failed); else if (!answer.refused) takeBars(answer);
  const found = await session.ask("problems", counted());
  if (found.problems) writing.show(found.problems);
});

// ---- sound

play.onclick = () => (sound.isPlaying ? sound.pause() : sound.play());
byId("end", HTMLButtonElement).onclick = () => session.end();
byId("start", HTMLButtonElement).onclick = () => sound.seek(sound.loop ? sound.loop.from : 0).then(follow);

function transport() {
  play.textContent = sound.isPlaying ? "Pause" : "Play";
  play.setAttribute("aria-busy", String(sound.isWaiting));
  if (sound.isPlaying) requestAnimationFrame(follow);
  else follow();
}

/** Moves the line to where the sound is. */
function follow() {
  if (sound.isOver) sound.pause();
  const tick = sound.tick;
  if (sound.isPlaying) axis.reveal(tick);
  roll.drawLine(tick);
  const bars = roll.bars ? roll.bars.bars : [];
  let bar = 0;
  for (const [begin, number] of bars) if (begin <= tick && number <= (roll.bars ? roll.bars.last : 0)) bar = number;
  byId("position", HTMLOutputElement).textContent =
    `${bars.length ? `bar ${bar}, ` : ""}${sound.now.toFixed(1)} s${sound.isWaiting ? ", the sound is made .." : ""}`;
  if (sound.isPlaying) requestAnimationFrame(follow);
}

// ---- the picture

byId("colours", HTMLSelectElement).onchange = (event) => {
  roll.byProcess = /** @type {HTMLSelectElement} */ (event.target).value === "process";
  roll.draw();
  lanes.draw();
};
byId("closer", HTMLButtonElement).onclick = () => axis.zoom(1.5);
byId("wider", HTMLButtonElement).onclick = () => axis.zoom(1 / 1.5);
byId("whole", HTMLButtonElement).onclick = () => axis.whole();
byId("export", HTMLSelectElement).onchange = async (event) => {
  const choice = /** @type {HTMLSelectElement} */ (event.target), kind = choice.value, window = selectedTicks();
  choice.value = "";
  if (kind === "excerpt" && !window) return tell("select bars first: drag over their numbers, or write them beside Loop");
  if (kind) await files.export(kind, { ...counted(), ...(window || {}) });
};
const layout = () => { roll.layout(); lanes.draw(); tempo.draw(); };
const sizes = new ResizeObserver(layout);
for (const box of [seeing, rollHome]) sizes.observe(box);
palette.isDark.addEventListener("change", () => { palette.hatches.clear(); layout(); });
addEventListener("keydown", (event) => {
  if ((event.ctrlKey || event.metaKey) && event.key === "s") {
    event.preventDefault();
    files.save();
  }
});

// ---- the beginning

/** For tests, and for whoever looks: what the page knows. */
Object.assign(globalThis, { studio: { axis, files, lanes, margins, mixer, roll, session, sound, tempo, times, writing,
  get places() { return places; } } });

if (about.opened) await files.open(about.opened);
else if (about.files.length) await files.open(about.files[0]);
else await files.copy("tutorial", "1_line.score").catch(() => files.take("", "formula 1;\nnote c4 1/4;\n", null));
if (about.silent) tell(about.silent);
