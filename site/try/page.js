// The page: what is shown of the library's answers, and which bytes it is given.
const $ = (id) => document.getElementById(id);
const hex = (number, width = 2) => number.toString(16).toUpperCase().padStart(width, '0');
const hexes = (bytes) => bytes.map((byte) => hex(byte)).join(' ');
const element = (tag, words = '', className = '') =>
    Object.assign(document.createElement(tag), {textContent: words, className});
const pause = (ms) => new Promise((done) => setTimeout(done, ms));

const FLAGS = [
  'left Shift', 'right Shift', 'left Control', 'right Control', 'Alt', 'left Super', 'right Super',
  'Caps Lock', 'Num Lock', 'Scroll Lock', 'AltGr'
];
const CONTROL = 1 << 2 | 1 << 3, CONTROL_KEY = 0x1D;
const DONE = 0, SCRIPT_ENDS = 2, QUEUE_FULL = 20, MALFORMED = 21;
// As the header names them.
const REFUSALS = {
  0: 'ok',
  2: 'script ends',
  3: 'log full',
  14: 'LEDs not set',
  19: 'unknown scancode',
  20: 'queue full',
  21: 'malformed record',
  22: 'no entry',
  24: 'ends after F0',
  31: 'side full',
  33: 'outside profile',
  255: 'invalid argument'
};
const named = (refusal) => `${REFUSALS[refusal] ?? 'refused'} (${refusal})`;
// The keys as they are drawn: KEY, KEY=LABEL or KEY=LABEL=WIDTH, row by row; the blocks stand
// beside each other where there is room.
const BLOCKS = [
  [
    'Escape=Esc F1 F2 F3 F4 F5 F6 F7 F8 F9 F10 F11 F12',
    'Backquote=` Digit1 Digit2 Digit3 Digit4 Digit5 Digit6 Digit7 Digit8 Digit9 Digit0 ' +
        'Minus=- Equal== Backspace=⌫=2',
    'Tab=Tab=1.5 KeyQ KeyW KeyE KeyR KeyT KeyY KeyU KeyI KeyO KeyP BracketLeft=[ ' +
        'BracketRight=] Backslash=\\=1.5',
    'CapsLock=Caps=1.75 KeyA KeyS KeyD KeyF KeyG KeyH KeyJ KeyK KeyL Semicolon=; Quote=\' ' +
        'Enter=Enter=2.25',
    'ShiftLeft=Shift=2.25 KeyZ KeyX KeyC KeyV KeyB KeyN KeyM Comma=, Period=. Slash=/ ' +
        'ShiftRight=Shift=2.75',
    'ControlLeft=Ctrl=1.5 MetaLeft=Super=1.5 AltLeft=Alt=1.25 Space=Space=5.25 ' +
        'AltRight=AltGr=1.25 MetaRight=Super=1.5 ContextMenu=Menu=1.25 ControlRight=Ctrl=1.5'
  ],
  [
    'Insert=Ins Home PageUp=PgUp NumLock=Num NumpadDivide=/ NumpadMultiply=* NumpadSubtract=-',
    'Delete=Del End PageDown=PgDn Numpad7=7 Numpad8=8 Numpad9=9 NumpadAdd=+',
    'ScrollLock=ScrLk ArrowUp=↑ IntlBackslash=<> Numpad4=4 Numpad5=5 Numpad6=6 NumpadEnter=Ent',
    'ArrowLeft=← ArrowDown=↓ ArrowRight=→ Numpad1=1 Numpad2=2 Numpad3=3 Numpad0=0'
  ],
];
const SPOKEN = {
  Backquote: 'Backquote',
  Minus: 'Minus',
  Equal: 'Equals',
  Backspace: 'Backspace',
  ArrowUp: 'Up',
  ArrowDown: 'Down',
  ArrowLeft: 'Left',
  ArrowRight: 'Right',
  IntlBackslash: 'Backslash beside Z',
  ShiftLeft: 'Left Shift',
  ShiftRight: 'Right Shift',
  ControlLeft: 'Left Control',
  ControlRight: 'Right Control',
  MetaLeft: 'Left Super',
  MetaRight: 'Right Super',
  AltRight: 'AltGr'
};
// What is before a byte: read from the keyboard, written to it, or sent by it in set 2 and not yet
// converted.
const WAYS = {read: '→', written: '←', raw: ''};
const LOCKS = {ScrollLock: 1, NumLock: 2, CapsLock: 4};
const holds = (key) => /^(Shift|Control|Alt|Meta)/.test(key);

let library, ports, inSet2, busy = false;
let typed = '', countsControl = false, taken = [], traffic = [];
const table = {keyboards: 1, profile: 0, set: 1, side: 1};
// Keys that a finger, a mouse or the real keyboard holds; a clicked modifier is only down.
const held = new Set();

// ---- what is shown

function draw() {
  for (const rows of BLOCKS) {
    const block = $('keyboard').appendChild(element('div', '', 'block'));
    for (const row of rows) {
      const line = block.appendChild(element('div', '', 'row'));
      for (const drawn of row.split(' ')) {
        const [key, label, width] =
            drawn.replace('==', '=\0').split('=').map((part) => part.replace('\0', '='));
        const button =
            line.appendChild(element('button', label ?? key.replace(/^(Key|Digit)/, '')));
        Object.assign(button, {id: `k-${key}`, tabIndex: -1, type: 'button'});
        button.style.setProperty('--width', width ?? 1);
        const spoken = /^Numpad/.test(key) ? key.replace('Numpad', 'Keypad ') : button.textContent;
        button.setAttribute('aria-label', SPOKEN[key] ?? spoken);
        if (holds(key)) button.setAttribute('aria-pressed', 'false');
        listen(button, key);
      }
    }
  }
  for (const id of ['queue', 'strip'])
    $(id).append(...Array.from({length: QUEUE_LENGTH}, () => element('i')));
  for (const id of ['flags-1', 'flags-2'])
    $(id).append(...FLAGS.map((name) => element('li', name)));
}

const glyph = ({keycode, flags}) => {
  const character = library.character(keycode, flags & ~CONTROL);
  return character > 32 && character < 127 ? String.fromCharCode(character) : hex(keycode);
};

function show() {
  const events = library.queue(), count = library.count(), isFull = count === QUEUE_LENGTH;
  const waiting = count === 1 ? '1 event waits' : count ? `${count} events wait` : 'no event waits';
  for (const id of ['queue', 'strip']) {
    [...$(id).children].forEach((cell, i) => {
      const event = events[i];
      cell.className = event ? (event.action ? 'r' : 'p') + (event.side === 2 ? ' two' : '') : '';
      if (id === 'queue') cell.textContent = event ? glyph(event) : '';
    });
    $(id).classList.toggle('full', isFull);
    $(id).setAttribute('aria-label', `The queue: ${waiting}${isFull ? ', it is full' : ''}`);
  }
  $('count').textContent = count;
  $('strip-count').textContent = `${count} of 128 events wait`;
  for (const side of [1, 2])
    [...$(`flags-${side}`).children].forEach((item, bit) => {
      const on = library.flags(side) >> bit & 1;
      item.className = on ? 'on' : '';
      item.setAttribute('aria-label', `${FLAGS[bit]} ${on ? 'on' : 'off'}`);
    });
  for (const [key, lamp] of Object.entries(LOCKS))
    $(`k-${key}`).classList.toggle('lit', (ports.keyboards[table.side].lamps & lamp) !== 0);
  $('counted').textContent = countsControl ? 'Control is held' : 'Control is up';
  const shown = ([way, byte]) => [element('span', WAYS[way] + hex(byte), way), ' '];
  $('traffic').replaceChildren(...traffic.slice(-24).flatMap(shown));
  $('events').replaceChildren(...taken.map((line) => element('li', line)));
  $('text').textContent = typed || '\u00A0';
}

function heard(way, port, byte) {
  if (way === 'read' && port === STATUS) return;
  traffic = [...traffic.slice(-63), [way, byte]];
}

// What is proved of an answer: each clause stands in the page, made with its links by tools/site.
function clause(name) {
  const it = $(`clause-${name}`);
  $('clause').replaceChildren(...(it ? [it.content.cloneNode(true)] : []));
}

function answered(call, lines, refusal, name) {
  $('refusal').textContent = named(refusal);
  $('refusal').className = refusal ? 'refusal no' : 'refusal';
  $('answer').textContent = [call, ...lines].join('\n');
  clause(name);
}

// ---- calls

// What a handler call's answer is an example of.
function caseOf(it, script, took) {
  if (it.refusal) return String(it.refusal);
  if (it.lamps) return '14';
  if (it.pairs) return 'lamps';
  if (took) return 'waited';
  if ([0xE0, 0xE1].includes(script[0])) return 'prefix';
  return [0x00, 0xFA].includes(script[0]) ? 'silent' : 'queued';
}

// A trap would be a wrong module, or an address that this page got wrong: what was called can't be
// called again.
function guarded(work) {
  try {
    return work();
  } catch (error) {
    if (!(error instanceof WebAssembly.RuntimeError)) throw error;
    busy = true;
    library.again().then(() => {
      renew();
      busy = false;
    });
    $('refusal').textContent = `The module has trapped: ${error.message}. Here is a new one.`;
    $('refusal').className = 'refusal no';
    return undefined;
  }
}

// A release that only gives its event leaves there what is shown of its press: a click is both.
function handle(side, byte, isRelease = false) {
  const took = byte === null;
  if (!took) heard('read', DATA, byte);
  const it = driven(library, side, took ? [] : [byte], ports, heard);
  const bytes = hexes(it.script.slice(0, 14)) + (it.script.length > 14 ? ' ..' : '');
  const lines = [`  script bytes used: ${it.used}`, `  pairs written: ${it.pairs}`];
  if (it.log.length) lines[1] += `   (${hexes(it.log)})`;
  if (it.lamps) lines.push(`  lamps: ${named(it.lamps)}`);
  if (it.dropped) lines.push(`  bytes dropped: ${it.dropped}`);
  if (it.refusal === SCRIPT_ENDS) lines.push(`  the port that would be read next: ${hex(it.port)}`);
  const name = caseOf(it, it.script, took);
  const call = `vd_handle(record, side ${side}, script ${bytes || 'of no bytes'})`;
  if (!isRelease || !['queued', 'prefix'].includes(name)) answered(call, lines, it.refusal, name);
  return it;
}

// The calls that take the bytes which a lamp exchange caught: those of them that can.
function takeWaiting(side) {
  for (let i = 0; i < 64 && library.kept(side); i++) {
    const it = handle(side, null);
    if ([SCRIPT_ENDS, MALFORMED].includes(it.refusal)) return it;
  }
  return undefined;
}

// A byte of a side, behind those that wait, and then those that its lamp exchange caught.
function send(side, byte, isRelease = false) {
  return guarded(() => {
    const stopped = takeWaiting(side);
    if (stopped) return stopped;
    const it = handle(side, byte, isRelease);
    if (it.refusal !== MALFORMED) takeWaiting(side);
    return it;
  });
}

// Takes an event. What is said of it is shown where a taking was asked for; a handler call's answer
// stays otherwise.
function take(isAsked = false) {
  const event = guarded(() => library.take());
  if (!event) return undefined;
  const {side, keycode, action, flags} = event, pressed = action === 0;
  const call = 'vd_take(record)', does = pressed ? 'pressed' : 'released';
  const line = `  side ${side}, keycode ${hex(keycode)}, ${does}, flags ${hex(flags, 3)}`;
  if (event.refusal) answered(call, [], event.refusal, String(event.refusal));
  else if (isAsked && side) answered(call, [line], DONE, 'taken');
  else if (isAsked) answered(call, ['  no event'], DONE, 'none');
  if (!side) return undefined;
  if (keycode === CONTROL_KEY) countsControl = pressed;
  const character = library.character(keycode, flags), name = glyph(event).toUpperCase();
  if (pressed) {
    if (character === 8) typed = typed.slice(0, -1);
    else if (character === 10) typed = '';
    else if (character >= 32) typed = (typed + String.fromCharCode(character)).slice(-60);
  }
  const parts = [hex(keycode), pressed ? 'P' : 'R', hex(flags, 3)];
  if (pressed && character > 32) parts.push(String.fromCharCode(character));
  if (table.keyboards === 2) parts.push(`side ${side}`);
  taken = [...taken, parts.join(' ')].slice(-6);
  const on = FLAGS.filter((_, bit) => flags >> bit & 1).join(', ');
  $('flags-taken').textContent = hex(flags, 3);
  if (keycode === CONTROL_KEY) {
    $('flags-why').textContent = `Control was ${does}.`;
    $('counted-why').textContent = `It saw Control ${does}.`;
  } else if (pressed) {
    const by = (isHeld) => `It takes ${isHeld ? 'Control-' : ''}${name}`;
    $('flags-why').textContent = `${by(flags & CONTROL)}: ${on || 'nothing'} is on.`;
    $('counted-why').textContent = `${by(countsControl)}.`;
  } else {
    $('flags-why').textContent = $('counted-why').textContent = `${name} was released.`;
  }
  $('counting').classList.toggle('wrong', countsControl !== ((flags & CONTROL) !== 0));
  return event;
}

// Takes all that wait, at most as many as a queue can have.
function takeAll() {
  let count = 0;
  while (count < QUEUE_LENGTH && take()) count++;
  return count;
}

function renew() {
  library.fresh(table.keyboards, table.profile);
  ports = Object.assign(new Controller(), {manner: $('manner').value});
  [typed, countsControl, taken, traffic] = ['', false, [], []];
  for (const button of document.querySelectorAll('#keyboard .down')) lift(button);
  held.clear();
  $('counting').classList.remove('wrong');
  $('flags-taken').textContent = '–';
  $('flags-why').textContent = $('counted-why').textContent = 'It saw no event yet.';
  show();
}

// ---- keys

const button = (key) => $(`k-${key}`);
function lift(it) {
  it.classList.remove('down');
  if (it.hasAttribute('aria-pressed')) it.setAttribute('aria-pressed', 'false');
}

function press(key, down) {
  if (busy || !SET1[key]) return;
  if (down) {
    button(key)?.classList.add('down');
    if (button(key)?.hasAttribute('aria-pressed')) button(key).setAttribute('aria-pressed', 'true');
  } else if (button(key)) lift(button(key));
  if (table.set === 2) sendSet2(inSet2(key, down), !down);
  else sendAll(scancodes(key, down), !down);
}

function sendAll(bytes, isRelease = false) {
  for (const byte of bytes) {
    send(table.side, byte, isRelease);
    if ($('at-once').checked) takeAll();
  }
  show();
}

function sendSet2(stream, isRelease = false) {
  const it = library.convert(stream);
  traffic.push(...stream.slice(0, it.used).map((byte) => ['raw', byte]));
  sendAll(it.out, isRelease);
  if (it.refusal)
    answered(`vd_convert_set2(${stream.map((b) => hex(b)).join(' ')})`,
        [`  stream bytes used: ${it.used}`, `  bytes written: ${it.written}`], it.refusal,
        String(it.refusal));
}

function listen(it, key) {
  const down = () => {
    held.add(key);
    press(key, true);
  };
  const up = () => {
    if (held.delete(key)) press(key, false);
  };
  it.addEventListener('pointerdown', (event) => {
    if (event.button) return;
    event.preventDefault();
    if (holds(key)) return press(key, !it.classList.contains('down'));
    it.setPointerCapture(event.pointerId);
    down();
  });
  for (const end of ['pointerup', 'pointercancel', 'lostpointercapture'])
    it.addEventListener(end, up);
  it.addEventListener('contextmenu', (event) => event.preventDefault());
  // By a reader of the screen: a click without a pointer.
  it.addEventListener('click', (event) => {
    if (event.detail) return;
    if (holds(key)) return press(key, !it.classList.contains('down'));
    press(key, true), press(key, false);
  });
}

function letGo() {
  for (const key of [...held]) press(key, false);
  held.clear();
}

// ---- the story

const prefersStill = matchMedia('(prefers-reduced-motion: reduce)');
async function story(atOnce = false) {
  if (busy) return [];
  busy = true, $('play').disabled = true;
  const told = [], isStill = prefersStill.matches;
  const wait = (ms) => (atOnce ? null : pause(isStill ? Math.min(ms, 900) : ms));
  const isStep = (i) => !atOnce && !isStill && i % 2 === 0;
  const say = (words) => {
    told.push(words);
    $('steps').append(element('li', words));
  };
  $('steps').replaceChildren(), $('full').hidden = true;
  Object.assign(table, {keyboards: 1, profile: 0, side: 1});
  options(), renew();
  send(1, 0x1D), show();
  await wait(500);
  for (let i = 0; i < 127; i++) {
    send(1, 0x1E);
    if (isStep(i)) show(), await wait(16);
  }
  show(), say(`Control is pressed, then A 127 times: ${library.count()} events wait.`);
  await wait(1200);
  const lost = send(1, 0x9D);
  $('full').hidden = lost.refusal !== QUEUE_FULL, $('full').textContent = named(lost.refusal);
  show(), say(`Control is released: refused ${lost.refusal}, its event is lost.`);
  await wait(2000);
  let count = 0;
  while (count < QUEUE_LENGTH && take()) {
    count++;
    if (isStep(count)) show(), await wait(16);
  }
  $('full').hidden = true;
  show(), say(`The queue is emptied: ${count} events are taken.`);
  await wait(1400);
  send(1, 0x14), show();
  await wait(500);
  const {flags} = take(), does = flags & CONTROL ? 'with' : 'without';
  show(), say(`T is pressed: its event has flags ${hex(flags, 3).toLowerCase()}, ${does} Control.`);
  $('play').disabled = busy = false, $('play').textContent = 'Play it again';
  return told;
}

// ---- and more

function hammer(times) {
  let seed = 12345, most = 0;
  const refusals = {}, began = performance.now();
  const random = () => (seed = Math.imul(seed, 1664525) + 1013904223 >>> 0) >>> 24;
  renew();
  for (let i = 0; i < times; i++) {
    const it = library.handle(1, Array.from({length: 7}, random));
    refusals[it.refusal] = (refusals[it.refusal] ?? 0) + 1;
    most = Math.max(most, library.count());
    if (random() < 32) library.take();
  }
  const seconds = (performance.now() - began) / 1000;
  renew();
  return {seconds, most, refusals};
}

function malformed() {
  library.words()[COUNT_AT] = 200n;
  send(table.side, 0x1E);
  show();
}

function sendRaw() {
  const words = $('bytes').value.trim().split(/[\s,]+/).filter(Boolean);
  const wrong = words.find((word) => !/^[0-9a-f]{1,2}$/i.test(word));
  const said = wrong ? `${wrong} is no byte: two hexadecimal digits, as 1E` : '';
  $('raw-wrong').textContent = words.length ? said : 'Type bytes, as 1E 9E';
  if (wrong || busy) return;
  const bytes = words.map((word) => parseInt(word, 16));
  if (table.set === 2) sendSet2(bytes);
  else sendAll(bytes);
}

function options() {
  document.querySelector(`input[name=keyboards][value="${table.keyboards}"]`).checked = true;
  $('profile').checked = table.profile === 1;
  $('side').value = table.side, $('set').value = table.set;
  for (const id of ['side-of', 'second-side', 'first-side', 'second-legend'])
    $(id).hidden = table.keyboards === 1;
}

async function begin() {
  const about = JSON.parse($('about').textContent), text = atob($('wasm').textContent.trim());
  const bytes = Uint8Array.from(text, (character) => character.charCodeAt(0));
  if (!bytes.length) throw new Error('this page was made without the library');
  library = await Library.load(bytes);
  inSet2 = set2(library);
  draw(), renew(), options();
  const {exports, imports} = WebAssembly.Module, size = bytes.length.toLocaleString('en');
  const functions = exports(library.module).filter((it) => it.kind === 'function').length;
  const parts = [`${functions} functions`, `${imports(library.module).length} imports`];
  parts.push(`${size} bytes`, `SHA-256 ${about.sum}; proved with ${about.kit}.`);
  $('module').textContent = `The module: ${parts.join(', ')}`;

  $('play').onclick = () => story();
  $('take').onclick = () => {
    if (!busy) take(true), show();
  };
  $('take-all').onclick = () => {
    if (!busy) takeAll() || take(true), show();
  };
  $('fresh').onclick = () => {
    if (!busy) renew();
  };
  $('malformed').onclick = () => {
    if (!busy) malformed();
  };
  $('hammer').onclick = async () => {
    if (busy) return;
    $('hammered').textContent = 'They are handled ..';
    await pause(30);
    const it = guarded(() => hammer(1e6));
    if (it)
      $('hammered').textContent = `${it.seconds.toFixed(2)} seconds, no trap, never more than ${
          it.most} events wait. Answers: ${
          Object.entries(it.refusals)
              .map(([number, times]) => `${named(number)} ${times.toLocaleString('en')}`)
              .join(', ')}.`;
  };
  for (const it of document.querySelectorAll('input[name=keyboards]'))
    it.onchange =
        () => { Object.assign(table, {keyboards: Number(it.value), side: 1}), options(), renew(); };
  $('profile').onchange = () => { table.profile = Number($('profile').checked), renew(); };
  $('side').onchange = () => { letGo(), table.side = Number($('side').value), show(); };
  $('set').onchange = () => { letGo(), table.set = Number($('set').value); };
  $('manner').onchange = () => { ports.manner = $('manner').value, ports.waiting = []; };
  $('raw').onsubmit = (event) => { event.preventDefault(), sendRaw(); };

  const keyboard = $('keyboard');
  keyboard.addEventListener('pointerdown', () => keyboard.focus({preventScroll: true}));
  // The focus stays with the keyboard, and goes to none of its keys.
  keyboard.addEventListener('mousedown', (event) => event.preventDefault());
  // Tab leads on, so that the focus is not kept.
  const isOurs = (event) => SET1[event.code] && event.code !== 'Tab' && event.target === keyboard;
  keyboard.addEventListener('keydown', (event) => {
    if (!isOurs(event)) return;
    event.preventDefault();
    held.add(event.code), press(event.code, true);
  });
  keyboard.addEventListener('keyup', (event) => {
    if (!isOurs(event)) return;
    event.preventDefault();
    if (held.delete(event.code)) press(event.code, false);
  });
  // What is let go elsewhere is never told of.
  keyboard.addEventListener('blur', letGo);
  addEventListener('blur', letGo);
}
window.begun = begin().catch((error) => {
  $('failed').hidden = false,
  $('failed').textContent = `The library can't run here: ${error.message}.`;
  throw error;
});
