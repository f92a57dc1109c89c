// ---- Keys: from card to card, to the filter, to a tab, and what they are.
const KEYS = [['j, k', 'the next card, the one before'], ['Enter', 'opens and closes a card, or copies a place'],
  ['/', 'to the filter'], ['1 to 9', 'a tab'], ['Esc', 'ends the filter and the chosen time'], ['?', 'this list']];

const help = made('dialog', {className: 'keys'});
help.setAttribute('aria-labelledby', 'keys-head');
help.append(made('h2', {id: 'keys-head'}, 'Keys'),
  made('dl', {}, ...KEYS.map(([key, does]) => made('div', {}, made('dt', {}, made('kbd', {}, key)), made('dd', {}, does)))),
  made('form', {method: 'dialog'}, made('button', {type: 'submit'}, 'close')));

const step = by => {
  const cards = every('section.tab:not([hidden]) details.group > summary').filter(one => one.checkVisibility());
  const now = cards.indexOf(document.activeElement?.closest('details.group')?.querySelector(':scope > summary'));
  const next = cards[now < 0 ? (by > 0 ? 0 : cards.length - 1) : Math.min(Math.max(now + by, 0), cards.length - 1)];
  next?.focus();
  next?.scrollIntoView({block: 'nearest'});
};

const ends = async () => {
  input.value = '';
  setChosen(null);
  await narrow();
};

const DOES = {
  j: () => step(1), k: () => step(-1), '/': () => { input.focus(); input.select(); }, '?': () => help.showModal(),
  Escape: ends,
};

addEventListener('keydown', event => {
  const typed = event.target.matches?.('input, textarea, [contenteditable]');
  if (event.ctrlKey || event.metaKey || event.altKey || help.open || typed && event.key !== 'Escape') return;
  const tab = links[Number(event.key) - 1];
  const does = DOES[event.key] ?? (tab && (() => tab.click()));
  if (!does) return;
  event.preventDefault();
  does();
});

// The browser's own search sees only what is drawn and shown, so all of it is.
addEventListener('keydown', async event => {
  if (!((event.ctrlKey || event.metaKey) && event.key === 'f' || event.key === 'F3')) return;
  await Promise.all(undrawn().map(draw));
  for (const table of every('table.sorted')) {
    expanded.add(table);
    showRows(table);
  }
  told.textContent = ' All rows are drawn now, so that the search of the browser finds them.';
});
