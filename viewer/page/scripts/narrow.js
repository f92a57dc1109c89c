// ---- In a window that is too narrow for a table its rows are blocks, in which each cell has the head of its column.
const NARROW = matchMedia('(max-width: 900px)'), NARROW_IF_WIDE = matchMedia('(max-width: 1180px)');
const TABLES = 'table.sorted, table.found, table.rules, table.builds, table.tree';

// As many letters as have room beside another cell.
const SHORT = 12;
const labelRow = (row, heads) => [...row.cells].forEach((cell, at) => {
  if (cell.colSpan > 1) return;
  cell.dataset.head = heads[at] ?? '';
  cell.classList.toggle('short', lineOf(cell).length <= SHORT);
  cell.classList.toggle('alone', !lineOf(cell));  // as a picture
});
const headsOf = table => [...table.tHead?.rows[0]?.cells ?? []].map(head => lineOf(head.querySelector('button') ?? head));

// On paper so are tables of more columns than that.
const ON_PAPER = 6;
let isPrinted = false;
const isTooWide = (table, heads) => isPrinted ? heads.length > ON_PAPER
  : NARROW.matches || NARROW_IF_WIDE.matches && table.classList.contains('wide');

const makeBlocks = root => {
  for (const table of every(TABLES, root)) {
    const heads = headsOf(table), narrow = isTooWide(table, heads);
    table.classList.toggle('blocks', narrow);
    if (narrow) for (const row of table.tBodies[0].rows) labelRow(row, heads);
  }
  if (root.matches?.('.blocks tr')) labelRow(root, headsOf(root.closest('table')));
};
// A browser counts the sheets of paper before it says how wide they are, so nothing may change then.
for (const width of [NARROW, NARROW_IF_WIDE]) width.addEventListener('change', () => isPrinted || makeBlocks(document));
whenDrawn.push(makeBlocks);
