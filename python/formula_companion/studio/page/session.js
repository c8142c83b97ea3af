// The socket to the server: texts go out with numbers, frames come back.

/** @typedef {{kind: string, number: number, question?: number, failed?: string, [name: string]: any}} Head */

/** Takes a frame apart: two lengths of 32 bits, a head as JSON, and bytes that begin at a multiple of eight.
 * @param {ArrayBuffer} data @returns {{head: Head, body: ArrayBuffer}} */
export function unpacked(data) {
  const lengths = new DataView(data);
  const head = lengths.getUint32(0, true), body = lengths.getUint32(4, true);
  const words = new TextDecoder().decode(new Uint8Array(data, 8, head));
  return { head: JSON.parse(words), body: data.slice(8 + head, 8 + head + body) };
}

/** An address of the studio, with each part of a name as it has to be written.
 * @param {string} path @param {string} [name] */
export function address(path, name = "") {
  return path + name.split("/").map(encodeURIComponent).join("/");
}

export class Session {
  /** @param {(head: Head, body: ArrayBuffer) => void} take @param {() => void} ended */
  constructor(take, ended) {
    this.number = 0;
    this.questions = 0;
    /** @type {Map<number, (head: Head) => void>} */
    this.waiting = new Map();
    this.socket = new WebSocket(new URL("socket", location.href.replace(/^http/, "ws")));
    this.socket.binaryType = "arraybuffer";
    this.socket.onmessage = (event) => {
      const { head, body } = unpacked(event.data);
      const answer = head.question === undefined || head.question === null ? null : this.waiting.get(head.question);
      if (answer) {
        this.waiting.delete(/** @type {number} */ (head.question));
        answer(head);
      } else {
        take(head, body);
      }
    };
    this.socket.onclose = ended;
    this.opened = new Promise((done) => { this.socket.onopen = () => done(undefined); });
  }

  /** Sends a text, which ends what runs for the one before.
   * @param {string} text @param {string} meter @param {string} upbeat */
  async play(text, meter, upbeat) {
    const number = ++this.number;
    this.waiting.clear();
    await this.opened;
    this.socket.send(JSON.stringify({ do: "text", number, text, meter, upbeat }));
  }

  /** Lets a Python file be run, which ends what runs for the text before.
   * @param {string} name @param {string} version @param {string} meter @param {string} upbeat */
  async run(name, version, meter, upbeat) {
    const number = ++this.number;
    this.waiting.clear();
    await this.opened;
    this.socket.send(JSON.stringify({ do: "run", number, name, version, meter, upbeat }));
  }

  /** Ends what is run. */
  end() { this.socket.send(JSON.stringify({ do: "end" })); }

  /** Asks about the text that was sent last. A text or a question of the same kind that comes after it does away
   * with it: then there is no answer.
   * @param {string} what @param {object} [more] @returns {Promise<Head>} */
  ask(what, more = {}) {
    const question = ++this.questions;
    return new Promise((done) => {
      this.waiting.set(question, done);
      this.socket.send(JSON.stringify({ do: what, question, ...more }));
    });
  }
}
