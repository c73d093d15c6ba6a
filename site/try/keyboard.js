// A controller with two keyboards that are made up, and the keys of a browser in scan code set 1.
// Nothing here is proved.
const STATUS = 0x64, DATA = 0x60, ACKNOWLEDGED = 0xFA, AGAIN = 0xFE, FAILED = 0xFC;
const LAMPS = 0xED, TO_SECOND = 0xD4;

class Keyboard {
  constructor() { Object.assign(this, {lamps: 0, expectsLamps: false, asksAgain: true}); }
  // What it answers to a byte that it is sent, by its manner.
  sent(byte, manner) {
    if (manner === 'refuses') return [FAILED];
    if (manner === 'again' && this.asksAgain) {
      this.asksAgain = false;
      return [AGAIN];
    }
    this.asksAgain = true;
    if (this.expectsLamps) this.lamps = byte & 7;
    this.expectsLamps = !this.expectsLamps && byte === LAMPS;
    return manner === 'typed' && this.expectsLamps ? [0x1E, 0x9E, ACKNOWLEDGED] : [ACKNOWLEDGED];
  }
}

class Controller {
  constructor() {
    Object.assign(this, {
      keyboards: {1: new Keyboard(), 2: new Keyboard()},
      waiting: [],
      toSecond: false,
      manner: 'acknowledges'
    });
  }
  // A byte, or undefined where the script is cut: the keyboard's answers don't come any more.
  read(port) {
    if (this.manner === 'cut' && !this.waiting.length) return undefined;
    const next = this.waiting[0];
    if (port === STATUS) return 0x1C | (next ? 1 : 0) | (next?.side === 2 ? 0x20 : 0);
    return this.waiting.shift()?.byte ?? 0;
  }
  write(port, byte) {
    if (port === STATUS) {
      this.toSecond = byte === TO_SECOND;
      return;
    }
    const side = this.toSecond ? 2 : 1;
    this.toSecond = false;
    if (this.manner === 'cut') return;
    const answers = this.keyboards[side].sent(byte, this.manner);
    this.waiting.push(...answers.map((answer) => ({byte: answer, side})));
  }
}

// One handler call over ports: run on the bytes read so far, and again with one more, as `Handling` of
// rust/vurdellow does. That this is sound is proved (docs/CUT-SCRIPTS.md). `heard` is told each
// byte that is read and each pair that is written.
function driven(library, side, script, ports, heard = () => {}) {
  script = [...script];
  for (let written = 0;;) {
    const it = library.handle(side, script);
    for (; written < it.pairs; written++) {
      const [port, byte] = it.log.slice(2 * written, 2 * written + 2);
      heard('written', port, byte);
      ports.write(port, byte);
    }
    const read = it.refusal === 2 && script.length < 4096 ? ports.read(it.port) : undefined;
    if (read === undefined) return {...it, script};
    heard('read', it.port, read);
    script.push(read);
  }
}

const fromOne =
    'Escape Digit1 Digit2 Digit3 Digit4 Digit5 Digit6 Digit7 Digit8 Digit9 Digit0 Minus Equal ' +
    'Backspace Tab KeyQ KeyW KeyE KeyR KeyT KeyY KeyU KeyI KeyO KeyP BracketLeft BracketRight ' +
    'Enter ControlLeft KeyA KeyS KeyD KeyF KeyG KeyH KeyJ KeyK KeyL Semicolon Quote Backquote ' +
    'ShiftLeft Backslash KeyZ KeyX KeyC KeyV KeyB KeyN KeyM Comma Period Slash ShiftRight ' +
    'NumpadMultiply AltLeft Space CapsLock F1 F2 F3 F4 F5 F6 F7 F8 F9 F10 NumLock ScrollLock ' +
    'Numpad7 Numpad8 Numpad9 NumpadSubtract Numpad4 Numpad5 Numpad6 NumpadAdd Numpad1 Numpad2 ' +
    'Numpad3 Numpad0 NumpadDecimal';
// Those that come directly after E0.
const AFTER_E0 = {
  ControlRight: 0x1D, AltRight: 0x38, MetaLeft: 0x5B, MetaRight: 0x5C, ContextMenu: 0x5D,
  NumpadEnter: 0x1C, NumpadDivide: 0x35, Home: 0x47, ArrowUp: 0x48, PageUp: 0x49,
  ArrowLeft: 0x4B, ArrowRight: 0x4D, End: 0x4F, ArrowDown: 0x50, PageDown: 0x51,
  Insert: 0x52, Delete: 0x53
};
const SET1 = {
  ...Object.fromEntries(fromOne.split(' ').map((key, i) => [key, [i + 1]])),
  IntlBackslash: [0x56], F11: [0x57], F12: [0x58],
  ...Object.fromEntries(Object.entries(AFTER_E0).map(([key, code]) => [key, [0xE0, code]])),
};
const scancodes = (key, down) =>
    SET1[key].map((byte) => (byte === 0xE0 || down ? byte : byte | 0x80));

// The same in set 2. Which byte of set 2 stands for a code is asked of the library's own
// conversion.
function set2(library) {
  const codes = new Map();
  for (let byte = 0x84; byte > 0; byte--) {
    const it = library.convert([byte]);
    if (!it.refusal && it.out.length === 1) codes.set(it.out[0], byte);
  }
  return (key, down) => SET1[key].flatMap((byte) => (byte === 0xE0 ? [byte]
                                                  : down           ? [codes.get(byte)]
                                                                   : [0xF0, codes.get(byte)]));
}
