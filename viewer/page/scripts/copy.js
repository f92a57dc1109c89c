// ---- What is copied: the command of a place, the address of a card, and a card as the text of a report.
const copyText = async text => {
  if (navigator.clipboard) return navigator.clipboard.writeText(text);
  // A page from a server without TLS has no clipboard.
  const box = made('textarea', {value: text, readOnly: true});
  document.body.append(box);
  box.select();
  const done = document.execCommand('copy');
  box.remove();
  if (!done) throw new Error('not copied');
};

const tell = (button, text) => {
  const told = button.parentElement.querySelector('.told') ?? made('span', {className: 'told'});
  told.setAttribute('role', 'status');
  button.after(told);
  told.textContent = text;
  setTimeout(() => told.remove(), 2500);
};

const copy = (button, text) => copyText(text).then(() => tell(button, ' copied'), () => tell(button, ' not copied'));

const command = document.querySelector('.command');
const commandAt = place => command.textContent.replace('PLACE', () => place);

const makeButtons = root => {
  for (const place of command ? every('.place', root) : []) {
    place.tabIndex = 0;
    place.setAttribute('role', 'button');
    place.title = 'copies the command that shows this record';
  }
  for (const actions of every('.actions', root)) {
    const button = made('button', {type: 'button', className: 'report'}, 'copy for a bug report');
    actions.append(' ', button);
  }
};

const lineOf = element => element?.textContent.replace(/\s+/g, ' ').trim() ?? '';

// The proved rows of a card, and what a program of a place shows.
const rowsOf = card => every('.inner td.proved', card).map(lineOf);
const placesOf = card => every('.inner .place', card).slice(0, 3).map(lineOf);

// A part of the head of a card, on one line.
const headOf = (card, selector) => {
  const copy = card.querySelector(`summary ${selector}`)?.cloneNode(true);
  for (const end of copy ? every('br', copy) : []) end.replaceWith(' ');
  return lineOf(copy);
};

const reportOf = card => {
  const of = selector => headOf(card, selector);
  const rows = rowsOf(card), shown = rows.slice(0, 20);
  return [
    `${of('.state')}: ${of('.what b')}`,
    ...every('summary .what bdi', card).map(lineOf),
    `culprit: ${of('.who') || lineOf(card.querySelector('summary .what bdi'))}`,
    `how many: ${of('.count')}`,
    `when and where: ${of('.marks')}`,
    `why: ${of('.why')}`,
    ...every('.inner .look', card).map(lineOf),
    ...every('.inner .fact', card).map(fact => `${lineOf(fact.firstChild)}: ${lineOf(fact.lastChild)}`),
    ...(rows.length ? ['rows of the proved report:', ...shown.map(row => `  ${row}`)] : []),
    ...(rows.length > shown.length ? [`  and ${rows.length - shown.length} more`] : []),
    `capture: ${lineOf(document.querySelector('h1'))}; ${every('header > p').slice(0, 2).map(lineOf).join(' ')}`,
    ...every('.commit').map(one => `binder-audit: ${lineOf(one)}`),
    'to see it again:',
    ...(command ? placesOf(card).map(place => `  ${commandAt(place)}`) : []),
    ...every('.inner > code', card).slice(0, 4).map(one => `  ${lineOf(one)}`),
    ...every('.again').map(one => `  ${lineOf(one)}`),
    `  and open the page at #${card.id}`, ''].join('\n');
};

const press = target => {
  const card = target.closest('details.group');
  if (target.matches('.place')) copy(target, commandAt(lineOf(target)));
  else if (target.matches('.report')) copy(target, reportOf(card));
};

document.addEventListener('click', event => {
  const target = event.target.closest('.place[role], .report');
  if (target) press(target);
  const link = event.target.closest('a.link');
  if (link) copy(link, `${location.href.split('#')[0]}${link.getAttribute('href')}`);
});
document.addEventListener('keydown', event => {
  if ((event.key === 'Enter' || event.key === ' ') && event.target.matches?.('.place[role]')) {
    event.preventDefault();
    press(event.target);
  }
});
whenDrawn.push(makeButtons);
if (command) document.querySelector('.copies').textContent = ' Press a place to copy that command.';
