// ---- A table is sorted by the column whose head is pressed: numbers from the largest, words from the first letter.
const numberOr = text => {
  const plain = text.replace(/,/g, '');
  return /^-?[0-9.]+/.test(plain) ? parseFloat(plain) : text;
};
const keyOf = (row, column) => {
  const cell = row.cells[column];
  return numberOr(cell?.dataset.key ?? cell?.textContent.trim() ?? '');
};
const compare = (one, other) =>
  typeof one === typeof other ? (one > other) - (one < other) : typeof one === 'number' ? 1 : -1;

const sortBy = async head => {
  const table = head.closest('table');
  await drawIn(table);
  const before = head.getAttribute('aria-sort');
  const rises = before === 'descending' || before === 'none' && !head.classList.contains('number');
  const column = [...head.parentNode.children].indexOf(head);
  for (const other of head.parentNode.children) other.setAttribute('aria-sort', 'none');
  head.setAttribute('aria-sort', rises ? 'ascending' : 'descending');
  const keyed = [...table.tBodies[0].rows].map(row => [keyOf(row, column), row]);
  // What has no key comes last in either order.
  const order = (one, other) => (one[0] === '') - (other[0] === '') || compare(one[0], other[0]) * (rises ? 1 : -1);
  table.tBodies[0].append(...keyed.sort(order).map(([, row]) => row));
  showRows(table);
};

const makeHeads = root => {
  for (const head of every('table.sorted > thead th', root)) {
    const axis = head.querySelector('.axis');
    const button = made('button', {type: 'button'}, ...[...head.childNodes].filter(one => one !== axis));
    head.prepend(button);
    button.addEventListener('click', () => sortBy(head));
  }
};
whenDrawn.push(makeHeads);
