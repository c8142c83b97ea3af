// A small synthesizer of the browser, for where no other is installed: a tone for each note, a noise for each drum.

const AHEAD = 0.4, STEP = 100;  // how far ahead notes are made, in seconds, and how often that is looked at, in ms
const DRUMS = 9;

export class Synth {
  /** @param {AudioContext} context */
  constructor(context) {
    this.context = context;
    this.noise = context.createBuffer(1, context.sampleRate / 4, context.sampleRate);
    const samples = this.noise.getChannelData(0);
    for (let at = 0; at < samples.length; at++) samples[at] = Math.random() * 2 - 1;
    this.out = context.createGain();
    this.out.gain.value = 0.25;
    this.out.connect(context.destination);
    this.timer = 0;
  }

  /** Plays notes from a second of the piece on; `begun` is when that is, by the audio clock.
   * @param {{at: number, lasts: number, key: number, velocity: number, channel: number}[]} notes in their order
   * @param {number} second @param {number} begun @param {{from: number, to: number} | null} loop */
  play(notes, second, begun, loop) {
    this.stop();
    const bus = this.context.createGain();
    bus.connect(this.out);
    this.bus = bus;
    let turn = begun - second;  // what is added to a second of the piece
    let next = notes.findIndex((note) => note.at >= second);
    const make = () => {
      const until = this.context.currentTime + AHEAD;
      for (;;) {
        const isOver = next < 0 || next >= notes.length;
        if (loop && (isOver || notes[next].at >= loop.to)) {
          if (turn + loop.to > until) return;
          turn += loop.to - loop.from;
          next = notes.findIndex((note) => note.at >= /** @type {{from: number}} */ (loop).from);
          if (next < 0 || notes[next].at >= loop.to) return;
          continue;
        }
        if (isOver || notes[next].at + turn > until) return;
        this.note(notes[next], notes[next].at + turn, bus);
        next++;
      }
    };
    make();
    this.timer = window.setInterval(make, STEP);
  }

  /** @param {{lasts: number, key: number, velocity: number, channel: number}} note @param {number} when @param {GainNode} bus */
  note({ lasts, key, velocity, channel }, when, bus) {
    const envelope = this.context.createGain(), end = when + Math.max(0.03, lasts);
    envelope.gain.setValueAtTime(0, when);
    envelope.gain.linearRampToValueAtTime(velocity / 127, when + 0.008);
    envelope.gain.setTargetAtTime(velocity / 400, when + 0.02, 0.3);
    envelope.gain.setTargetAtTime(0, end, 0.04);
    envelope.connect(bus);
    let source;
    if (channel === DRUMS) {
      source = this.context.createBufferSource();
      source.buffer = this.noise;
      source.playbackRate.value = 0.5 + (key - 35) / 30;
    } else {
      source = this.context.createOscillator();
      source.type = "triangle";
      source.frequency.value = 440 * 2 ** ((key - 69) / 12);
    }
    source.connect(envelope);
    source.start(when);
    source.stop(end + 0.3);
  }

  stop() {
    window.clearInterval(this.timer);
    if (this.bus) this.bus.disconnect();
  }

  /** @type {GainNode | null} */ bus = null;
}
