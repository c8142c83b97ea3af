// Reads long files aside, so that the page goes on meanwhile.
import { read } from "./midi.js";

onmessage = (event) => {
  const piece = read(new Uint8Array(event.data));
  postMessage(piece);
};
