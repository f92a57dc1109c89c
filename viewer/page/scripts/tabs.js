// ---- Tabs: of the sections one is shown, which the address names, or in which what it names is. The browser's own search
// finds what is in the others too, and opens them.
const tabs = every('section.tab');
const links = every('nav.tabs a');

const showTab = tab => {
  for (const one of tabs) one.hidden = one === tab ? false : 'until-found';
  for (const link of links) {
    if (link.hash === `#${tab.id}`) link.setAttribute('aria-current', 'page');
    else link.removeAttribute('aria-current');
  }
};

const reveal = element => {
  const tab = element.closest('section.tab');
  if (tab?.hidden) showTab(tab);
  for (let one = element; one; one = one.parentElement) if (one.tagName === 'DETAILS') one.open = true;
  element.hidden = false;
};

const elementNamed = async name => {
  const there = name && document.getElementById(name);
  if (there || !name) return there;
  const part = await partWith(name);
  if (part) await draw(part);
  return document.getElementById(name);
};

// Goes to what has a name. If the window need not begin with it, it scrolls no further than that its head is seen.
const goTo = async (name, mayStay = false) => {
  for (const one of every('.named')) one.classList.remove('named');
  const element = await elementNamed(name);
  if (!element) return;
  reveal(element);
  if (tabs.includes(element)) {
    const above = element.getBoundingClientRect().top < 0;
    if (above) document.querySelector('nav.tabs').scrollIntoView();
    return;
  }
  element.classList.add('named');
  const head = element.querySelector(':scope > summary');
  if (mayStay) (head ?? element).scrollIntoView({block: 'nearest'});
  else element.scrollIntoView({block: element.tagName === 'TR' ? 'center' : 'start'});
  head?.focus({preventScroll: true});
};

for (const tab of tabs) tab.addEventListener('beforematch', () => showTab(tab));

// A link within the page keeps how the page is narrowed.
document.addEventListener('click', event => {
  const link = event.target.closest('a[href^="#"]');
  if (!link || event.ctrlKey || event.metaKey || event.shiftKey) return;
  event.preventDefault();
  const to = address.text({...address.read(), name: decodeURIComponent(link.hash.slice(1))});
  if (to !== location.hash) history.pushState(null, '', to);
  follow();
});
