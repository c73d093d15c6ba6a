// A server of calls over a module: node [--experimental-wasm-memory64] server-node.js MODULE EXPORTS
// Reads calls from standard input and writes answers, as the server in C of tests/stored does:
// EXPORTS is the list of names, their arguments and answers, and the sizes of the structs.
const fs = require('fs');
const {names, functions, sizes} = JSON.parse(fs.readFileSync(process.argv[3], 'utf8'));
const NUMBERS = {u32: 4, u8: 1, u64: 8};

function get(count) {
  const found = Buffer.alloc(count);
  for (let at = 0; at < count;) {
    const read = fs.readSync(0, found, at, count - at);
    if (!read) process.exit(0);
    at += read;
  }
  return found;
}
function put(bytes) {
  for (let at = 0; at < bytes.length;) at += fs.writeSync(1, bytes, at);
}

(async () => {
  const module = await WebAssembly.compile(fs.readFileSync(process.argv[2]));
  const {exports} = await WebAssembly.instantiate(module), {memory} = exports;
  // All that is lent lies in the last half, behind the module's own data and stack.
  const from = memory.buffer.byteLength - (2 << 20);
  for (;;) {
    const name = names[get(4).readUInt32LE()], [kinds, answer] = functions[name];
    let at = from;
    // Each piece begins at a multiple of 16, apart from the one in front of it.
    const lend = (bytes) => {
      const place = at;
      new Uint8Array(memory.buffer, place, bytes.length).set(bytes);
      at = Math.ceil((place + bytes.length) / 16) * 16 + 16;
      return place;
    };
    const given = answer in NUMBERS ? null : lend(Buffer.alloc(sizes[answer])), written = [],
          passed = given === null ? [] : [BigInt(given)];
    for (const kind of kinds) {
      const slice = kind.match(/^&(mut )?\[(\w+)\]$/);
      if (slice) {
        const length = Number(get(8).readBigUInt64LE()), size = length * NUMBERS[slice[2]],
              place = lend(get(size));
        passed.push(BigInt(place), BigInt(length));
        if (slice[1]) written.push([place, size]);
      } else if (kind === 'u64')
        passed.push(get(8).readBigUInt64LE());
      else if (kind in NUMBERS)
        passed.push(get(4).readInt32LE());
      else
        passed.push(BigInt(lend(get(sizes[kind]))));
    }
    const number = exports[name](...passed), taken = (place, size) =>
        Buffer.from(new Uint8Array(memory.buffer, place, size));
    if (given === null) {
      const bytes = Buffer.alloc(4);
      bytes.writeUInt32LE(number >>> 0);
      put(bytes);
    } else
      put(taken(given, sizes[answer]));
    for (const [place, size] of written) put(taken(place, size));
  }
})();
