// A MIDI file of the program as arrays: its events, and of each note where it begins and ends. Ticks are summed up
// from the file, and never computed otherwise.

/** @typedef {object} Piece
 * @property {number} division the ticks of a quarter note
 * @property {number} end the tick of End of Track
 * @property {Float64Array} ticks of each event
 * @property {Uint8Array} messages three bytes for each event
 * @property {Int32Array} notes of each note the event that begins it
 * @property {Float64Array} ends of each note the tick at which it ends
 * @property {number} longest the ticks of the longest note
 * @property {number} low the lowest key @property {number} high the highest key
 * @property {number[]} channels those that have events */

const ON = 9, OFF = 8;

class Bytes {
  /** @param {Uint8Array} data */
  constructor(data) { this.data = data; this.at = 0; }

  /** A variable-length quantity. */
  quantity() {
    let value = 0, byte = 0;
    do { byte = this.data[this.at++]; value = value * 128 + (byte & 127); } while (byte & 128);
    return value;
  }

  /** @param {number} count */
  number(count) {
    let value = 0;
    for (let left = count; left > 0; left--) value = value * 256 + this.data[this.at++];
    return value;
  }
}

/** Reads a file of one track.
 * @param {Uint8Array} data @returns {Piece} */
export function read(data) {
  const bytes = new Bytes(data);
  bytes.at = 12;
  const division = bytes.number(2);
  bytes.at += 8;
  const room = Math.max(1, Math.ceil((data.length - bytes.at) / 3));
  const ticks = new Float64Array(room), messages = new Uint8Array(3 * room);
  let count = 0, tick = 0, status = 0;
  while (bytes.at < data.length) {
    tick += bytes.quantity();
    if (data[bytes.at] & 128) status = data[bytes.at++];
    if (status === 0xff) {
      const kind = data[bytes.at++], length = bytes.quantity();
      bytes.at += length;
      if (kind === 0x2f) break;
      continue;
    }
    ticks[count] = tick;
    messages[3 * count] = status;
    messages[3 * count + 1] = data[bytes.at++];
    if (status >> 4 !== 0xc && status >> 4 !== 0xd) messages[3 * count + 2] = data[bytes.at++];
    count++;
  }
  return paired(division, tick, ticks.slice(0, count), messages.slice(0, 3 * count));
}

/** Whether an event begins a note.
 * @param {Uint8Array} messages @param {number} event */
export function begins(messages, event) {
  return messages[3 * event] >> 4 === ON && messages[3 * event + 2] > 0;
}

/** Finds the end of each note: a note-off ends the first note of its channel and key that still sounds.
 * @param {number} division @param {number} end @param {Float64Array} ticks @param {Uint8Array} messages
 * @returns {Piece} */
function paired(division, end, ticks, messages) {
  const notes = [], ends = [];
  /** @type {number[][]} */
  const sounding = Array.from({ length: 2048 }, () => []);
  const used = new Set();
  let low = 127, high = 0;
  for (let event = 0; event < ticks.length; event++) {
    const status = messages[3 * event], key = messages[3 * event + 1], kind = status >> 4;
    used.add(status & 15);
    if (kind !== ON && kind !== OFF) continue;
    const begun = sounding[(status & 15) * 128 + key];
    if (begins(messages, event)) {
      begun.push(notes.length);
      notes.push(event);
      ends.push(end);
      low = Math.min(low, key);
      high = Math.max(high, key);
    } else if (begun.length) {
      ends[/** @type {number} */ (begun.shift())] = ticks[event];
    }
  }
  return whole({ division, end, ticks, messages, notes: Int32Array.from(notes), ends: Float64Array.from(ends),
    longest: 0, low: notes.length ? low : 60, high: notes.length ? high : 60,
    channels: [...used].sort((one, other) => one - other) });
}

/** @param {Piece} piece */
function whole(piece) {
  let longest = 0;
  for (let note = 0; note < piece.notes.length; note++) {
    longest = Math.max(longest, piece.ends[note] - piece.ticks[piece.notes[note]]);
  }
  piece.longest = longest;
  return piece;
}

/** Takes the ends of notes from the score: `partners` has of each event the one that ends or begins its note.
 * @param {Piece} piece @param {Int32Array} partners */
export function corrected(piece, partners) {
  for (let note = 0; note < piece.notes.length; note++) {
    const off = partners[piece.notes[note]];
    if (off >= 0) piece.ends[note] = piece.ticks[off];
  }
  whole(piece);
}

/** A file of some of the events, to be heard alone.
 * @param {Piece} piece @param {(event: number) => boolean} isHeard @returns {Uint8Array} */
export function written(piece, isHeard) {
  /** @type {number[]} */
  const body = [0, 0xff, 0x51, 3, 7, 0xa1, 0x20];
  let last = 0;
  /** @param {number} tick */
  const wait = (tick) => {
    for (; tick - last > 0xfffffff; last += 0xfffffff) body.push(0xff, 0xff, 0xff, 0x7f, 0xff, 1, 0);
    const groups = [];
    for (let left = tick - last; left > 0 || !groups.length; left = Math.floor(left / 128)) groups.unshift(left % 128);
    groups.forEach((group, at) => body.push(at + 1 < groups.length ? group + 128 : group));
    last = tick;
  };
  for (let event = 0; event < piece.ticks.length; event++) {
    if (!isHeard(event)) continue;
    wait(piece.ticks[event]);
    const [status, first, second] = piece.messages.subarray(3 * event, 3 * event + 3);
    body.push(status, first);
    if (status >> 4 !== 0xc && status >> 4 !== 0xd) body.push(second);
  }
  wait(piece.end);
  body.push(0xff, 0x2f, 0);
  const made = new Uint8Array(22 + body.length), view = new DataView(made.buffer);
  made.set([0x4d, 0x54, 0x68, 0x64, 0, 0, 0, 6, 0, 0, 0, 1, piece.division >> 8, piece.division & 255,
    0x4d, 0x54, 0x72, 0x6b]);
  view.setUint32(18, body.length);
  made.set(body, 22);
  return made;
}

/** The second at which a tick is played: a file has 120 quarter notes a minute.
 * @param {Piece} piece @param {number} tick */
export function seconds(piece, tick) { return tick / (2 * piece.division); }

/** @param {Piece} piece @param {number} second */
export function tickAt(piece, second) { return second * 2 * piece.division; }
