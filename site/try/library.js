// The library's exports, called by the header's names (include/vurdellow.h). No answer is worked
// out here: each is what the proved code wrote.
//
// How a call crosses: numbers of 32 bits as they are; a slice as its address and its length, two
// BigInts; a struct that comes back, through a first argument, the address where it is to be put.
// All that is lent lies in one room behind the module's own data and stack.
const U32 = 4, U64 = 8;
// A struct's fields in their order, each with its width.
const SHAPES = {
  handled: {refusal: U32, lamps: U32, used: U64, pairs: U64, dropped: U32, port: U32},
  taken: {refusal: U32, side: U32, keycode: U32, action: U32, flags: U32},
  converted: {refusal: U32, used: U64, written: U64},
  written: {refusal: U32, written: U64},
};
// Places of the record's 144 numbers that the header names, and those of the queue, which is shown
// without being taken (crates/handler_words).
const WORDS = 144, QUEUE_LENGTH = 128;
const FLAGS_AT = {1: 1, 2: 6}, WAITING_AT = {1: 2, 2: 7};
const START_AT = 12, COUNT_AT = 13, SIDES_AT = 14, PLACES_FROM = 16;

class Library {
  static ROOM = 2 << 20;

  // A trap leaves an instance unusable: `again` is called with a new one.
  constructor(module, instance) {
    this.module = module;
    this.begin(instance);
  }
  static async load(bytes) {
    const module = await WebAssembly.compile(bytes);
    return new Library(module, await WebAssembly.instantiate(module));
  }
  begin(instance) {
    this.exports = instance.exports;
    this.memory = instance.exports.memory;
    const from = this.memory.buffer.byteLength - Library.ROOM;
    if (from < Number(this.exports.__heap_base?.value ?? 0))
      throw new Error('the module leaves no room to lend');
    this.at = {
      answer: from,
      record: from + 1024,
      log: from + 8192,
      script: from + 65536,
      out: from + 65536 + 1572864
    };
  }
  async again() { this.begin(await WebAssembly.instantiate(this.module)); }

  bytes(at, length) { return new Uint8Array(this.memory.buffer, at, length); }
  words() { return new BigUint64Array(this.memory.buffer, this.at.record, WORDS); }
  lent(bytes) {
    this.bytes(this.at.script, bytes.length).set(bytes);
    return [BigInt(this.at.script), BigInt(bytes.length)];
  }
  out(length) { return [BigInt(this.at.out), BigInt(length)]; }
  record() { return [BigInt(this.at.record), BigInt(WORDS)]; }
  answer(name, shape, ...args) {
    this.exports[name](BigInt(this.at.answer), ...args);
    const view = new DataView(this.memory.buffer, this.at.answer, 256), found = {};
    let at = 0;
    for (const [field, width] of Object.entries(SHAPES[shape])) {
      at = Math.ceil(at / width) * width;
      found[field] = width === U32 ? view.getUint32(at, true) : Number(view.getBigUint64(at, true));
      at += width;
    }
    return found;
  }

  fresh(keyboards = 1, profile = 0) {
    return this.exports.vd_handler_fresh(...this.record(), keyboards, profile) >>> 0;
  }
  handle(side, script, room = 160) {
    const it = this.answer('vd_handle', 'handled', ...this.record(), side, ...this.lent(script),
        BigInt(this.at.log), BigInt(room));
    return {...it, log: [...this.bytes(this.at.log, 2 * it.pairs)]};
  }
  take() { return this.answer('vd_take', 'taken', ...this.record()); }
  character(keycode, flags) { return this.exports.vd_character(keycode, flags) >>> 0; }
  convert(stream, room = 65536) {
    const it = this.answer('vd_convert_set2', 'converted', ...this.lent(stream), ...this.out(room));
    return {...it, out: [...this.bytes(this.at.out, it.written)]};
  }
  type(text, room = 65536) {
    const it = this.answer('vd_type_text', 'written', ...this.lent(text), ...this.out(room));
    return {...it, out: [...this.bytes(this.at.out, it.written)]};
  }

  count() { return Number(this.words()[COUNT_AT]); }
  flags(side) { return Number(this.words()[FLAGS_AT[side]]); }
  kept(side) { return Number(this.words()[WAITING_AT[side]]); }
  // The events that wait, oldest first, for showing: nothing is taken.
  queue() {
    const words = this.words(), sides = words[SIDES_AT] | words[SIDES_AT + 1] << 64n, found = [];
    for (let i = 0; i < Math.min(this.count(), QUEUE_LENGTH); i++) {
      const it = Number(words[PLACES_FROM + (Number(words[START_AT]) + i) % QUEUE_LENGTH]);
      found.push({
        keycode: it & 0xFF,
        action: it >> 8 & 0xFF,
        flags: it >> 16 & 0xFFFF,
        side: sides >> BigInt(i) & 1n ? 2 : 1
      });
    }
    return found;
  }
}
