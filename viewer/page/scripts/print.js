// ---- On paper all tabs stand one after another, what is folded is open, and tables have all rows that are drawn.
let folded = [], closed = [];
addEventListener('beforeprint', () => {
  isPrinted = true;
  makeBlocks(document);
  folded = every('details:not([open])');
  for (const one of folded) one.open = true;
  for (const tab of tabs) {
    tab.dataset.hidden = tab.hidden;
    tab.hidden = false;
  }
  closed = every('table.sorted').filter(table => !expanded.has(table));
  for (const table of closed) {
    expanded.add(table);
    showRows(table);
  }
});
addEventListener('afterprint', () => {
  isPrinted = false;
  makeBlocks(document);
  for (const one of folded) one.open = false;
  for (const tab of tabs) if (tab.dataset.hidden !== 'false') tab.hidden = 'until-found';
  for (const table of closed) {
    expanded.delete(table);
    showRows(table);
  }
});
