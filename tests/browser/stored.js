// The stored lines of tests/traces (their README.md says the form) asked of a module: of the
// operations that the page has. A line of another is passed over. Of the answers those are compared
// that stand behind the call; a call that stands in port/ too has its answer there.
const bytesOf = (words) => (words === '-' ? [] : words.split(',').flatMap((part) => {
  const [bytes, times] = part.split('*');
  return Array(Number(times ?? 1))
      .fill((bytes.match(/../g) ?? []).map((byte) => parseInt(byte, 16)))
      .flat();
}));
const hexes = (bytes) =>
    bytes.map((byte) => byte.toString(16).toUpperCase().padStart(2, '0')).join('') || '-';
const padded = (number, width) => number.toString(16).toUpperCase().padStart(width, '0');
const refused = (refusal) => (refusal ? `refused:${refusal}` : 'ok');
const eventText = (event) => padded(event.keycode, 2) + (event.action ? 'R' : 'P') +
    padded(event.flags, 3) + (event.side === 2 ? '@2' : '');
const fields = (words) => Object.fromEntries(
    words.filter((word) => word.includes('='))
        .map((word) => [word.slice(0, word.indexOf('=')), word.slice(word.indexOf('=') + 1)]));

// Lends the record that a line's `state` says.
function lend(library, state) {
  const said = Object.fromEntries(state.split(',').map((pair) => pair.split(':')));
  library.fresh(said.table === '2' ? 2 : 1, said.profile === '1' ? 1 : 0);
  const words = library.words();
  const keyboard = (at, prefix, flags, kept, waits) => {
    if (prefix) words[at] = BigInt(prefix);
    if (flags) words[at + 1] = BigInt(parseInt(flags, 16));
    const bytes = kept ? bytesOf(kept) : [];
    words[at + 2] = BigInt(waits ?? bytes.length);
    for (const half of [0, 1])
      words[at + 3 + half] = bytes.slice(8 * half, 8 * half + 8)
                                 .reduceRight((number, byte) => number * 256n + BigInt(byte), 0n);
  };
  keyboard(0, said.ext, said.flags, said.kept, said.waits);
  keyboard(5, said.ext2, said.flags2, said.kept2, said.waits2);
  const events = !said.queue || said.queue === '-'
      ? []
      : said.queue.split(';').flatMap(
            (one) => Array(Number(one.split('*')[1] ?? 1)).fill(one.split('*')[0]));
  const start = Number(said.start ?? 0);
  let sides = 0n;
  events.forEach((event, i) => {
    words[PLACES_FROM + (start + i) % QUEUE_LENGTH] = BigInt(parseInt(event.slice(0, 2), 16) +
        256 * (event[2] === 'R') + 65536 * parseInt(event.slice(3, 6), 16));
    if (event.endsWith('@2')) sides |= 1n << BigInt(i);
  });
  words[START_AT] = BigInt(start), words[COUNT_AT] = BigInt(said.count ?? events.length);
  words[SIDES_AT] = sides & 0xFFFFFFFFFFFFFFFFn, words[SIDES_AT + 1] = sides >> 64n;
}

function recordText(library) {
  const words = library.words();
  const kept = (at) => Array.from({length: Math.min(16, Number(words[at + 2]))},
      (_, i) => Number(words[at + 3 + (i >> 3)] >> BigInt(8 * (i & 7)) & 255n));
  const parts = [
    `ext:${words[0]}`, `flags:${padded(Number(words[1]), 3)}`,
    `queue:${library.queue().map(eventText).join(';') || '-'}`
  ];
  if (words[2]) parts.push(`kept:${hexes(kept(0))}`);
  if (words[10] === 2n) parts.push('table:2');
  if (words[5]) parts.push('ext2:1');
  if (words[6]) parts.push(`flags2:${padded(Number(words[6]), 3)}`);
  if (words[7]) parts.push(`kept2:${hexes(kept(5))}`);
  if (words[11]) parts.push('profile:1');
  if (words[START_AT] >= 128n) parts.push(`start:${words[START_AT]}`);
  if (words[COUNT_AT] > 128n) parts.push(`count:${words[COUNT_AT]}`);
  if (words[2] > 16n) parts.push(`waits:${words[2]}`);
  if (words[7] > 16n) parts.push(`waits2:${words[7]}`);
  return parts.join(',');
}

// The steps of a plan: `auto` is calls and `each` calls and takings, for as long as there are
// bytes.
function* stepsOf(plan) {
  do {
    for (const one of plan === 'auto' ? ['a'] : plan === 'each' ? ['a', 't'] : plan.split(',')) {
      const [step, times] = one.split('*');
      for (let i = 0; i < Number(times ?? 1); i++) yield step;
    }
  } while (plan === 'auto' || plan === 'each');
}

function handled(library, call) {
  if (call.state) lend(library, call.state);
  else library.fresh();
  const scripts = {1: bytesOf(call.script ?? '-'), 2: call.script2 ? bytesOf(call.script2) : null},
        at = {1: 0, 2: 0}, calls = [];
  let used = 0, wrote = 0;
  for (const step of stepsOf(call.plan ?? 'auto')) {
    if (step === 't') {
      const it = library.take();
      calls.push(`t:${it.refusal || (it.side ? eventText(it) : 'none')}`);
      if (it.refusal) break;
      continue;
    }
    if (step === 'a' && at[1] >= scripts[1].length && !library.kept(1)) break;
    const side = step === 'g' ? 2 : 1, from = side === 2 && scripts[2] ? 2 : 1,
          it = library.handle(side, scripts[from].slice(at[from]), Number(call.log));
    at[from] += it.used, used += it.used, wrote += it.pairs;
    calls.push(`${step === 'g' ? 'g' : 'h'}:${it.used}:${it.pairs}:${hexes(it.log)}:${
        it.refusal || 'ok'}${it.lamps ? '+14' : ''}${it.dropped ? '~' + it.dropped : ''}`);
    if ([2, 3, 21].includes(it.refusal)) break;
  }
  return {
    used: String(used),
    wrote: String(wrote),
    calls: calls.join(',') || '-',
    rec: recordText(library)
  };
}

// What the module answers to a line, by the names of the line's own answer; nothing where the page
// has no such operation.
function answerOf(library, operation, words, call) {
  if (operation === 'handle' && !call.repeat && call.log !== undefined)
    return handled(library, call);
  if (operation === 'to_ascii' && parseInt(words[0], 16) <= 0x5D)
    return {val: String(library.character(parseInt(words[0], 16), parseInt(words[1], 16)) || '-')};
  if (operation === 'convert_set2') {
    const it = library.convert(bytesOf(call.in), Number(call.room));
    return {out: refused(it.refusal), used: String(it.used), bytes: hexes(it.out)};
  }
  if (operation === 'type_text') {
    const it = library.type(bytesOf(call.in), Number(call.room));
    return {out: refused(it.refusal), bytes: hexes(it.out)};
  }
  return undefined;
}

// `files` are the texts, those of port/ first: [name, text]. Gives how many lines were asked of
// each operation, and those that are wrong.
function askStored(library, files) {
  const found = {asked: {}, passed: 0, wrong: []}, ofThePort = new Map();
  for (const [name, text] of files) {
    const lines = text.split('\n').filter((line) => line && !line.startsWith('#'));
    for (let i = 0; i + 1 < lines.length; i += 2) {
      if (name.startsWith('port/')) ofThePort.set(lines[i], lines[i + 1]);
      const [operation, ...words] = lines[i].split(' '),
                        wanted = fields((ofThePort.get(lines[i]) ?? lines[i + 1]).split(' '));
      let got;
      try {
        got = answerOf(library, operation, words, fields(words));
      } catch (error) {
        return {
          ...found,
          wrong: [...found.wrong, {line: `${name}: ${lines[i]}`, wanted, got: String(error)}]
        };
      }
      if (!got) {
        found.passed++;
        continue;
      }
      found.asked[operation] = (found.asked[operation] ?? 0) + 1;
      if (Object.entries(got).some(([field, it]) => it !== wanted[field]))
        found.wrong.push({line: `${name}: ${lines[i]}`, wanted, got});
    }
  }
  return found;
}

// What the program tablekeys prints of a script.
function listing(library, script) {
  let text = '', at = 0;
  library.fresh();
  while (at < script.length || library.kept(1)) {
    const it = library.handle(1, script.slice(at), 16), event = library.take();
    if (it.refusal) text += `refused ${it.refusal}\n`;
    if (event.side)
      text += `${padded(event.keycode, 2)} ${event.action ? 'R' : 'P'} ${padded(event.flags, 3)} ${
          library.character(event.keycode, event.flags) || '-'}\n`;
    if ([2, 3, 21].includes(it.refusal)) break;
    at += it.used;
  }
  return text;
}

// What is found of a module, given in base64, or why it is none.
async function askModule(base64, files, script) {
  try {
    const bytes = Uint8Array.from(atob(base64), (character) => character.charCodeAt(0));
    const library = await Library.load(bytes);
    return {...askStored(library, files), listing: listing(library, script)};
  } catch (error) {
    return {error: String(error)};
  }
}
