// Play, pause, seek and loop. The sound is rendered by the server, each file once, or made by the small synthesizer; where
// it is, the audio clock tells.
import { seconds, tickAt, written } from "./midi.js";
import { Synth } from "./synth.js";

/** @typedef {import("./midi.js").Piece} Piece */

const SOON = 0.06;           // seconds from the call to the first sound
const LONGEST = 30 * 60;     // of a file that is rendered, in seconds
const KEPT = 4;              // how many rendered files the page keeps

export class Sound {
  /** @param {string} missing why no file is rendered; '' where it is
   * @param {(words: string) => void} tell @param {() => void} changed */
  constructor(missing, tell, changed) {
    this.missing = missing;
    this.tell = tell;
    this.changed = changed;
    /** @type {Map<string, AudioBuffer>} */
    this.rendered = new Map();
  }

  /** @type {Piece | null} */ piece = null;
  /** @type {Uint8Array} */ file = new Uint8Array();
  /** @type {(event: number) => boolean} */ isHeard = () => true;
  choice = "";               // what tells one choice of what is heard from another
  number = 0;                // of the piece
  isPlaying = false;
  isWaiting = false;
  second = 0;                // where it is while it does not play
  /** @type {{from: number, to: number} | null} */ loop = null;
  /** @type {AudioContext | null} */ context = null;
  /** @type {AudioBufferSourceNode | null} */ source = null;
  /** @type {Synth | null} */ synth = null;
  begun = 0;                 // when it began to sound, by the audio clock
  from = 0;                  // and from which second of the piece

  /** @param {Piece} piece @param {Uint8Array} file */
  async show(piece, file) {
    this.piece = piece;
    this.file = file;
    this.number++;
    if (this.isPlaying) await this.again();
  }

  get end() { return this.piece ? seconds(this.piece, this.piece.end) : 0; }

  /** The second of the piece that is heard now. */
  get now() {
    if (!this.isPlaying || !this.context || this.begun === Infinity) return this.second;
    let at = this.from + Math.max(0, this.heard() - this.begun);
    if (this.loop && this.from < this.loop.to && at >= this.loop.to) {
      at = this.loop.from + (at - this.loop.to) % (this.loop.to - this.loop.from);
    }
    return Math.min(at, this.end);
  }

  /** The time of the audio clock that is heard now. */
  heard() {
    const context = /** @type {AudioContext} */ (this.context), told = context.getOutputTimestamp();
    if (told.contextTime === undefined || !told.performanceTime) return context.currentTime;
    const heard = told.contextTime + (performance.now() - told.performanceTime) / 1000;
    // a clock that has just begun may tell nothing yet
    return Math.abs(heard - context.currentTime) < 1 ? heard : context.currentTime;
  }

  get tick() { return this.piece ? tickAt(this.piece, this.now) : 0; }

  /** Whether it has come to the end. */
  get isOver() { return this.isPlaying && !this.loop && this.now >= this.end; }

  async play() {
    if (!this.piece) return;
    this.context = this.context || new AudioContext({ latencyHint: "interactive" });
    this.isPlaying = true;
    this.isWaiting = true;
    this.from = this.second;
    this.begun = Infinity;  // it does not sound yet
    this.changed();
    await this.context.resume();
    if (this.second >= this.end) this.second = 0;
    if (this.loop && (this.second < this.loop.from || this.second >= this.loop.to)) this.second = this.loop.from;
    await this.sound(this.second);
  }

  pause() {
    this.second = this.now;
    this.silence();
    this.isPlaying = this.isWaiting = false;
    this.changed();
  }

  /** @param {number} second */
  async seek(second) {
    this.second = Math.max(0, Math.min(second, this.end));
    if (this.isPlaying) await this.sound(this.second);
    this.changed();
  }

  /** Begins anew where it is, as what is heard or the piece has changed. */
  async again() { if (this.isPlaying) await this.sound(null); }

  /** Sounds from a second on; from where it is then, for null.
   * @param {number | null} second */
  async sound(second) {
    const context = /** @type {AudioContext} */ (this.context), piece = /** @type {Piece} */ (this.piece);
    const wish = ++this.wishes;
    const buffer = await this.buffer(context, piece);
    if (wish !== this.wishes || !this.isPlaying) return;
    const from = Math.min(second ?? this.now, this.end);
    this.silence();
    this.from = from;
    this.begun = context.currentTime + SOON;
    this.isWaiting = false;
    if (buffer) this.start(context, buffer, from);
    else this.startSynth(context, piece, from);
    this.changed();
  }

  wishes = 0;

  /** @param {AudioContext} context @param {AudioBuffer} buffer @param {number} from */
  start(context, buffer, from) {
    const source = context.createBufferSource();
    source.buffer = buffer;
    if (this.loop && from < this.loop.to) {
      source.loop = true;
      source.loopStart = this.loop.from;
      source.loopEnd = Math.min(this.loop.to, buffer.duration);
    }
    source.connect(context.destination);
    source.start(this.begun, from);
    this.source = source;
  }

  /** @param {AudioContext} context @param {Piece} piece @param {number} from */
  startSynth(context, piece, from) {
    this.synth = this.synth || new Synth(context);
    const notes = [];
    for (let note = 0; note < piece.notes.length; note++) {
      const event = piece.notes[note], tick = piece.ticks[event];
      if (!this.isHeard(event)) continue;
      const [status, key, velocity] = piece.messages.subarray(3 * event, 3 * event + 3);
      notes.push({ at: seconds(piece, tick), lasts: seconds(piece, piece.ends[note] - tick), key, velocity, channel: status & 15 });
    }
    this.synth.play(notes, from, this.begun, this.loop);
  }

  silence() {
    if (this.source) {
      this.source.stop();
      this.source.disconnect();
      this.source = null;
    }
    if (this.synth) this.synth.stop();
  }

  /** The rendered sound of what is heard of the piece; null where the small synthesizer has to do.
   * @param {AudioContext} context @param {Piece} piece @returns {Promise<AudioBuffer | null>} */
  async buffer(context, piece) {
    if (this.missing || this.end > LONGEST) {
      this.tell(`a small synthesizer of the browser plays: ${this.missing || "the piece is longer than 30 minutes"}`);
      return null;
    }
    const name = `${this.number} ${this.choice}`, known = this.rendered.get(name);
    if (known) return known;
    const isWhole = !this.choice;
    const answer = await fetch("sound", { method: "POST", body: isWhole ? this.file : written(piece, this.isHeard) });
    if (!answer.ok) {
      this.tell(`a small synthesizer of the browser plays: ${await answer.text()}`);
      return null;
    }
    const made = await context.decodeAudioData(await answer.arrayBuffer());
    this.rendered.set(name, made);
    if (this.rendered.size > KEPT) this.rendered.delete(this.rendered.keys().next().value);
    this.tell(isWhole ? "fluidsynth plays the program's file" : "fluidsynth plays what is not muted of the program's file");
    return made;
  }
}
