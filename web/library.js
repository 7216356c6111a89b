// The calls of embed/uzebox.h in WebAssembly. The module's memory has 64-bit addresses, which are BigInts here.

export const FRAME = 0, QUIET = 1, STOPPED = 2, NO_HEX = 3, SHORT = 4;
const ANSWER_SHORT = 256;

// Where web/build and a release put the module.
const PLACES = ['uzebox.wasm', '../release/wasm64/uzebox.wasm'];

// What this browser lacks, or an empty text.
export function missing() {
  if (typeof WebAssembly !== 'object') return 'WebAssembly';
  const memory = Uint8Array.of(0, 97, 115, 109, 1, 0, 0, 0, 5, 3, 1, 4, 1); // a module of one memory with 64-bit addresses
  return WebAssembly.validate(memory) ? '' : 'WebAssembly with 64-bit memory (Chromium and Chrome have it from version 133 on)';
}

export async function load() {
  const lack = missing();
  if (lack) throw new Error(`This browser has no ${lack}.`);
  for (const place of PLACES) {
    const answer = await fetch(place);
    if (answer.ok) return new Library((await WebAssembly.instantiate(await answer.arrayBuffer(), {})).instance.exports);
  }
  throw new Error(`${PLACES[0]} isn't there: make it by web/build, and serve the top of the repository.`);
}

// Texts one after another, each behind its length: eight bytes with the low one first.
function packed(texts) {
  const out = new Uint8Array(texts.reduce((sum, it) => sum + 8 + it.length, 0)), view = new DataView(out.buffer);
  let at = 0;
  for (const text of texts) {
    view.setBigUint64(at, BigInt(text.length), true);
    out.set(text, at + 8);
    at += 8 + text.length;
  }
  return out;
}

function unpacked(bytes) {
  const view = new DataView(bytes.buffer, bytes.byteOffset, bytes.byteLength), texts = [];
  for (let at = 0; at < bytes.length; at += 8 + texts.at(-1).length)
    texts.push(bytes.subarray(at + 8, at + 8 + Number(view.getBigUint64(at, true))));
  return texts;
}

class Library {
  constructor(wasm) {
    this.wasm = wasm;
    this.answer = wasm.host_alloc(16n); // what a call returns: its status, latches, and a length of 64 bits
    this.state = this.room(Number(wasm.host_state_size()));
    this.records = this.room(200000);
  }

  room(size) {
    const at = this.wasm.host_alloc(BigInt(size));
    if (!at) throw new Error('There is no memory left.');
    return { at, size };
  }

  // The bytes of a place; to be taken anew after a call, since the memory may have grown.
  bytes(place) {
    return new Uint8Array(this.wasm.memory.buffer, Number(place.at), place.size);
  }

  put(bytes) {
    const place = this.room(bytes.length || 1);
    this.bytes(place).set(bytes);
    return place;
  }

  free(place) {
    if (place) this.wasm.host_free(place.at);
  }

  returned() {
    const view = new DataView(this.wasm.memory.buffer, Number(this.answer), 16);
    return { status: view.getUint32(0, true), latches: view.getUint32(4, true), length: Number(view.getBigUint64(8, true)) };
  }

  // The console at reset with the flash of this HEX text, and what uzebox_reset answers.
  reset(hex, response) {
    const place = this.put(hex);
    this.wasm.uzebox_reset(this.answer, place.at, BigInt(hex.length), response, this.state.at);
    const { status } = this.returned();
    if (status !== FRAME) {
      this.free(place);
      return status;
    }
    this.free(this.hex);
    this.hex = place;
    this.hexLength = BigInt(hex.length);
    return status;
  }

  // Goes on to the end of a frame, while these buttons are held: the status, latches and records.
  frame(one, two, clocks) {
    for (;;) {
      this.wasm.uzebox_frame(this.answer, this.hex.at, this.hexLength, this.state.at, one, two, clocks,
        this.records.at, BigInt(this.records.size));
      const { status, latches, length } = this.returned();
      if (status !== SHORT) return { status, latches, records: this.bytes(this.records).subarray(0, status < NO_HEX ? length : 0) };
      this.free(this.records);
      this.records = this.room(length);
    }
  }

  // The clock since reset.
  clock() {
    return Number(new DataView(this.wasm.memory.buffer, Number(this.state.at), 8).getBigUint64(0, true));
  }

  saved() {
    return this.bytes(this.state).slice();
  }

  restore(state) {
    this.bytes(this.state).set(state);
  }

  // Whether the module has the commands too.
  hasCommands() {
    return 'uzebox_run' in this.wasm;
  }

  // A command of uzebox over files in memory, a Map from names to bytes: its status, what it prints, and the files that it made or
  // changed.
  run(words, files) {
    const coder = new TextEncoder(), texts = [];
    for (const [name, bytes] of files) texts.push(coder.encode(name), bytes);
    const given = [packed(words.map(it => coder.encode(it))), packed(texts)], places = given.map(it => this.put(it));
    for (let size = 1 << 20; ;) {
      const answer = this.room(size);
      this.wasm.uzebox_run(this.answer, places[0].at, BigInt(given[0].length), places[1].at, BigInt(given[1].length), answer.at, BigInt(size));
      const { status, length } = this.returned();
      const bytes = this.bytes(answer).slice(0, status < ANSWER_SHORT ? length : 0);
      this.free(answer);
      if (status === ANSWER_SHORT) {
        size = length;
        continue;
      }
      for (const place of places) this.free(place);
      if (status > ANSWER_SHORT) throw new Error(`The command isn't run: ${status}.`);
      const [text, ...rest] = unpacked(bytes), out = new Map();
      for (let k = 0; k + 1 < rest.length; k += 2) out.set(new TextDecoder().decode(rest[k]), rest[k + 1]);
      return { status, text: new TextDecoder().decode(text), files: out };
    }
  }
}
