// How the wrong programs are listed, and which are found. Without this script all lists are shown.
const views = ['rooms', 'kinds', 'claims'], find = document.getElementById('words'),
      found = document.getElementById('found');

function view(name) {
  for (const it of views) document.getElementById(it).hidden = it !== name;
  for (const button of document.querySelectorAll('[data-view]'))
    button.setAttribute('aria-pressed', String(button.dataset.view === name));
}

// A link to a wrong program leads to it in its room, opened.
function go() {
  const card = document.getElementById(decodeURIComponent(location.hash.slice(1)));
  if (!card?.classList.contains('card')) return;
  view('rooms');
  card.hidden = card.closest('.room').hidden = false;
  card.open = true;
  card.scrollIntoView();
}

function search() {
  const words = find.value.toLowerCase().split(/\s+/).filter(Boolean),
        has = (it) => words.every((word) => it.dataset.words.includes(word));
  let count = 0;
  for (const it of document.querySelectorAll('[data-words]')) {
    it.hidden = !has(it);
    if (!it.hidden && it.classList.contains('card')) count++;
  }
  for (const group of document.querySelectorAll('.room, .group'))
    group.hidden = !group.querySelector('[data-words]:not([hidden])');
  found.textContent =
      words.length ? `${count} of ${document.querySelectorAll('.card').length}` : '';
}

for (const button of document.querySelectorAll('[data-view]'))
  button.onclick = () => view(button.dataset.view);
document.getElementById('find').onsubmit = (event) => event.preventDefault();
find.oninput = search;
addEventListener('hashchange', go);
view('rooms');
go();
