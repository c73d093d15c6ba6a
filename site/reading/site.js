// The search field, and which sentence's answers are shown.
const field = document.getElementById("find"), found = document.getElementById("found");
const up = field.dataset.up, most = 40;

function list(title, items) {
  if (!items.length) return;
  const head = document.createElement("h2"), ul = document.createElement("ul");
  head.textContent = title;
  if (items.length > most) head.textContent += `, the first ${most} of ${items.length}`;
  for (const [href, name, words] of items.slice(0, most)) {
    const li = document.createElement("li"), a = document.createElement("a");
    a.href = up + href;
    a.textContent = name;
    li.append(a, " " + words);
    ul.append(li);
  }
  found.append(head, ul);
}

// A name as words: QueueFull and queue_full are "queue full".
function plain(text) {
  return text.replace(/([a-z])([A-Z])/g, "$1 $2").replace(/[_:./()-]+/g, " ").toLowerCase();
}

// How well a text fits: 0 where it has the words as they stand, 1 where it has each of them,
// and null where it lacks one.
function fit(text, q) {
  const it = text.toLowerCase();
  if (it.includes(q) || plain(text).includes(q)) return 0;
  return q.split(/\s+/).every(word => it.includes(word) || plain(text).includes(word)) ? 1 : null;
}

function fitting(items, text, q) {
  const fits = items.map(it => [fit(text(it), q), it]).filter(it => it[0] !== null);
  return fits.sort((a, b) => a[0] - b[0]).map(it => it[1]);
}

function byNumber(q) {
  const word = new RegExp("(^|[^0-9A-Za-z.,])" + q.replaceAll(".", "\\.") +
    "(?![0-9A-Za-z]|[.,][0-9])");
  const asks = s => /\?/.test(s[3]) && new RegExp(`\\b${q}\\.?( \\(.*\\))?$`).test(s[3]);
  list("Refusals", INDEX.refusals.filter(r => r[0] === q).map(r => [r[2], `${r[1]} (${r[0]})`, r[3]]));
  list("Headings", INDEX.titles.filter(t => word.test(t[1])).map(t => [t[2], t[1], t[0]]));
  const said = INDEX.sentences.filter(s =>
    word.test(s[3]) || s[1] === q || s[1].startsWith(q + ","));
  said.sort((a, b) => asks(b) - asks(a) || word.test(b[3]) - word.test(a[3]));
  list("Sentences", said.map(s => [s[2], `${s[0]}: ${s[1]}`, s[3]]));
}

// Sentences come before the names of code.
function byWords(q) {
  const refusals = fitting(INDEX.refusals, r => r[1], q);
  list("Refusals", refusals.map(r => [r[2], `${r[1]} (${r[0]})`, r[3]]));
  const sentences = fitting(INDEX.sentences, s => s[3], q);
  list("Sentences", sentences.map(s => [s[2], `${s[0]}: ${s[1]}`, s[3]]));
  list("Headings", fitting(INDEX.titles, t => t[1], q).map(t => [t[2], t[1], t[0]]));
  const rank = n => n === q || n === q + "()" ? 0 : n.startsWith(q) ? 1 : 2;
  const names = fitting(INDEX.names, n => n[0], q);
  names.sort((a, b) => rank(a[0].toLowerCase()) - rank(b[0].toLowerCase()) || b[3] - a[3]);
  list("Names", names.map(n => [n[2], n[0], `${n[1]}, ${n[4]}`]));
}

function search() {
  const q = field.value.trim().toLowerCase();
  found.replaceChildren();
  found.hidden = !q;
  if (!q) return;
  if (/^[0-9.]+$/.test(q)) byNumber(q);
  else byWords(q);
  if (!found.children.length) found.textContent = "Nothing has these words, this number or this name.";
}

function mark() {
  for (const a of document.querySelectorAll("a.s[aria-current]")) a.removeAttribute("aria-current");
  const id = decodeURIComponent(location.hash.slice(1));
  const section = id && document.getElementById(id);
  if (!section || section.tagName !== "SECTION") return;
  const links = [...document.querySelectorAll("a.s")].filter(a => a.hash === "#" + id);
  for (const a of links) a.setAttribute("aria-current", "true");
  if (links.length && matchMedia("(min-width: 900px)").matches) {
    links[0].scrollIntoView({ block: "nearest" });
  }
  const pane = section.closest("aside");
  if (pane) pane.scrollTop = 0;
  section.focus({ preventScroll: true });
}

function close() {
  found.hidden = true;
  field.value = "";
}

field.form.addEventListener("submit", e => e.preventDefault());
field.addEventListener("input", search);
found.addEventListener("click", e => { if (e.target.tagName === "A") close(); });
addEventListener("hashchange", mark);
addEventListener("keydown", e => {
  if (e.key === "/" && e.target !== field) {
    e.preventDefault();
    field.focus();
  }
  if (e.key === "Enter" && e.target === field) found.querySelector("a")?.click();
  if (e.key === "Escape") {
    if (!found.hidden) {
      close();
      field.focus();
    }
    for (const it of document.querySelectorAll("header details[open]")) it.open = false;
  }
});
field.value = new URLSearchParams(location.search).get("q") || "";
search();
mark();
