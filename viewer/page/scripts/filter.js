// ---- The filter: only what has the words, and was in the chosen time. What is folded opens if it has some.
const FIRST = 20, DRAWN_HITS = 300;
const ITEMS = 'details.group, table.sorted > tbody:not(.packed) > tr', TIMED = 'table.found > tbody > tr[data-t]';

const texts = new WeakMap();
const textOf = one => texts.get(one) ?? (texts.set(one, one.textContent.toLowerCase()), texts.get(one));
const spans = new WeakMap();
const spansOf = one => spans.get(one) ?? (spans.set(one, one.dataset.t.split(' ').map(Number)), spans.get(one));

let words = [];
const isThen = one => {
  if (!chosen || !one.dataset.t) return true;
  const at = spansOf(one);
  for (let n = 0; n < at.length; n += 2) if (at[n] <= chosen[1] && at[n + 1] >= chosen[0]) return true;
  return false;
};
const isWanted = one => isThen(one) && words.every(word => textOf(one).includes(word));

// Of a table the first rows are shown, or all that have the words.
const rest = new WeakMap();
const expanded = new WeakSet();
const showRows = table => {
  const rows = [...table.tBodies[0].rows], packed = parts.get(table.querySelector('tbody.packed'));
  const wanted = rows.filter(isWanted);
  const most = expanded.has(table) || words.length || table.closest('details.group') ? Infinity : FIRST;
  // One button for one or two rows would say more than the rows.
  const shown = new Set(wanted.length <= most + 2 ? wanted : wanted.slice(0, most));
  for (const row of rows) if (row.hidden === shown.has(row)) row.hidden = !shown.has(row);
  const left = wanted.length - shown.size + (packed && !words.length && !chosen ? packed.count : 0);
  let told = rest.get(table);
  if (!told) {
    const button = made('button', {type: 'button'});
    button.addEventListener('click', async () => {
      expanded.add(table);
      await drawIn(table);
      showRows(table);
      table.tBodies[0].rows[FIRST]?.querySelector('a, button, [tabindex]')?.focus({preventScroll: true});
    });
    told = made('p', {className: 'of rest'}, button);
    rest.set(table, told);
    table.closest('.scroll')?.after(told);
  }
  told.hidden = !left;
  told.firstChild.textContent = `show ${left.toLocaleString('en')} more ${left === 1 ? 'row' : 'rows'}`;
  table.classList.toggle('empty', !shown.size);
};

// How often something has the words, by the tab that it is in; and the parts that have some and are not drawn.
const hitsIn = async () => {
  const found = {all: 0, hits: 0, undrawn: 0, byTab: new Map(), parts: []};
  const count = (root, tab, part) => {
    const items = every(ITEMS, root), hits = items.filter(isWanted).length;
    found.all += items.length;
    found.hits += hits;
    found.byTab.set(tab, (found.byTab.get(tab) ?? 0) + hits);
    if (part && hits) {
      found.undrawn += hits;
      found.parts.push([part, hits]);
    }
  };
  await unpackAll();
  for (const tab of tabs) count(tab, tab);
  for (const part of undrawn()) {
    // Rows of a packed table have no table above them.
    if (part.holder.closest('table')) {
      const rows = [...part.fragment.children], hits = rows.filter(isWanted).length, tab = part.holder.closest('section.tab');
      found.all += rows.length;
      found.hits += hits;
      found.undrawn += hits;
      found.byTab.set(tab, (found.byTab.get(tab) ?? 0) + hits);
      if (hits) found.parts.push([part, hits]);
    } else count(part.fragment, part.holder.closest('section.tab'), part);
  }
  return found;
};

const input = made('input', {type: 'search', placeholder: 'show only what has these words'});
input.setAttribute('aria-label', input.placeholder);
const told = made('span', {className: 'dim'});
told.setAttribute('role', 'status');

const openFolds = () => {
  for (const fold of every('details.fold')) {
    fold.dataset.was ??= fold.open ? 'open' : 'closed';
    const has = every(ITEMS, fold).some(one => !one.hidden && isWanted(one));
    if (words.length) fold.open = has;
    else if (fold.dataset.was) {
      fold.open = fold.dataset.was === 'open';
      delete fold.dataset.was;
    }
  }
};

// Nothing is told where nothing is narrowed.
const tellHits = found => {
  told.textContent = found ? ` ${found.hits.toLocaleString('en')} of ${found.all.toLocaleString('en')} groups and rows${
    found.undrawn ? `, ${found.undrawn.toLocaleString('en')} of them not drawn yet` : ''}` : '';
  links.forEach((link, at) => {
    let hits = link.querySelector('.hits');
    if (!hits) link.append(hits = made('span', {className: 'hits'}));
    const n = found?.byTab.get(tabs[at]) ?? 0;
    hits.textContent = found ? ` ${n.toLocaleString('en')} ${n === 1 ? 'hit' : 'hits'}` : '';
  });
};

let turn = 0;
const narrow = async () => {
  const mine = ++turn;
  words = input.value.toLowerCase().split(/\s+/).filter(Boolean);
  address.change({words: input.value.trim(), time: timeWord(chosen)});
  let found = null;
  if (words.length || chosen) {
    found = await hitsIn();
    if (mine !== turn) return;
    let room = DRAWN_HITS;
    for (const [part, hits] of found.parts) {
      if (hits > room) continue;
      room -= hits;
      found.undrawn -= hits;
      await draw(part);
    }
  }
  if (mine !== turn) return;
  for (const group of every('details.group')) {
    const hides = !isWanted(group);
    if (group.hidden !== hides) group.hidden = hides;
  }
  for (const row of every(TIMED)) if (row.hidden === isThen(row)) row.hidden = !isThen(row);
  every('table.sorted').forEach(showRows);
  openFolds();
  tellHits(found);
};

let waits = 0;
input.addEventListener('input', () => {
  clearTimeout(waits);
  waits = setTimeout(narrow, 120);
});
whenDrawn.push(root => {
  for (const table of every('table.sorted', root)) showRows(table);
  if (root.matches('details.group')) root.hidden = !isWanted(root);
});
