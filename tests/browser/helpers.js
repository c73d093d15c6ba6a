// What tests/try and tests/reading ask of a page, in the page.
const at = (id) => document.getElementById(id);
const until = (test) => new Promise((done) => {
  const look = () => (test() ? done() : setTimeout(look, 10));
  look();
});

function choose(selector, value) {
  const it = document.querySelector(selector);
  it.value = value;
  for (const kind of ['input', 'change']) it.dispatchEvent(new Event(kind, {bubbles: true}));
}

// What stands beside the queue while the story says that it is full, and the queue's class then.
async function seenWhileFull() {
  const seen = new Set();
  await until(() => {
    if (!at('full').hidden) seen.add(`${at('full').textContent}, ${at('queue').className}`);
    return !at('play').disabled;
  });
  return [...seen];
}

// ---- looks

// Text whose contrast with what is behind it is below 4.5, as WCAG reckons it.
function unreadable() {
  const of = (color) => {
    const it = color.match(/[\d.]+/g).map(Number);
    return it.length > 3 && it[3] === 0 ? null : it;
  };
  const linear = (c) => (c <= 0.04045 ? c / 12.92 : ((c + 0.055) / 1.055) ** 2.4);
  const light = ([r, g, b]) =>
    0.2126 * linear(r / 255) + 0.7152 * linear(g / 255) + 0.0722 * linear(b / 255);
  const behind = (it) => {
    for (; it; it = it.parentElement) {
      const found = of(getComputedStyle(it).backgroundColor);
      if (found) return found;
    }
    return [255, 255, 255];
  };
  const found = new Set(), walk = document.createTreeWalker(document.body, NodeFilter.SHOW_TEXT);
  while (walk.nextNode()) {
    const it = walk.currentNode.parentElement, words = walk.currentNode.data.trim();
    if (!words || !it.checkVisibility()) continue;
    if (it.closest('script, style, template, :disabled')) continue;
    const both = [light(of(getComputedStyle(it).color)), light(behind(it))].sort((a, b) => b - a);
    const contrast = (both[0] + 0.05) / (both[1] + 0.05);
    if (contrast < 4.5) found.add(`${it.tagName} ${words.slice(0, 30)}: ${contrast.toFixed(2)}`);
  }
  return [...found].slice(0, 5);
}

const named = (it) => `${it.tagName}#${it.id}.${it.className}`;

// What reaches past the window's right edge.
function tooWide() {
  const past = (it) => it.checkVisibility() && it.getBoundingClientRect().right > innerWidth + 1;
  const found = [...document.querySelectorAll('main *')].filter(past).slice(0, 3).map(named);
  return document.scrollingElement.scrollWidth > innerWidth ? ['the page', ...found] : found;
}

// Buttons that a finger doesn't hit.
function tooSmall() {
  const small = (it) => {
    const {width, height} = it.getBoundingClientRect();
    return it.checkVisibility() && (height < 24 || width < 16);
  };
  return [...document.querySelectorAll('button')].filter(small).slice(0, 5).map(named);
}
