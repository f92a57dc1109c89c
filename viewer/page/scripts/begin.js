// ---- The page begins: what the script adds to it, and what its address says.
const setChosen = makeStrip(() => narrow());
document.querySelector('.filter').append(input, told, made('button', {
  type: 'button', className: 'help', onclick: () => help.showModal()}, 'keys'));
document.body.append(help);
makeHeads(document);
makeButtons(document);
makeBlocks(document);

const follow = async () => {
  const {name, words: given, time} = address.read();
  const element = document.getElementById(name);
  if (!element?.closest('section.tab') && !every('section.tab:not([hidden])').length || !name) showTab(tabs[0]);
  setChosen(spanOf(time));
  if (input.value.trim() !== given) input.value = given;
  await narrow();
  await goTo(name);
};
for (const tab of tabs.slice(1)) tab.hidden = 'until-found';
if (tabs.length) showTab(tabs[0]);
addEventListener('popstate', follow);
follow().then(async () => {
  // Without an address a page opens at what its capture was kept for.
  if (!location.hash && strip?.dataset.opens) await goTo(strip.dataset.opens, true);
});
