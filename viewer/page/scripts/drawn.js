// ---- What a large page has packed: rows and cards that are drawn when they are looked at.
const parts = new Map(every('.packed').map(holder =>
  [holder, {holder, count: Number(holder.dataset.count), fragment: null}]));

// Its markup is the page's own, in which the texts of a capture are escaped. A template runs and loads nothing.
const unpack = async part => {
  if (!part.fragment) {
    const bytes = Uint8Array.from(atob(part.holder.dataset.packed), one => one.charCodeAt(0));
    const plain = new Blob([bytes]).stream().pipeThrough(new DecompressionStream('deflate'));
    const template = document.createElement('template');
    template.innerHTML = await new Response(plain).text();
    part.fragment ??= template.content;
  }
  return part.fragment;
};

const undrawn = () => [...parts.values()];
const unpackAll = () => Promise.all(undrawn().map(unpack));

const whenDrawn = [];

const draw = async part => {
  const fragment = await unpack(part);
  if (!parts.delete(part.holder)) return;
  const at = part.holder, table = at.closest('table');
  const told = (table ? at.closest('.scroll') : at).nextElementSibling;
  if (told?.matches('.undrawn')) told.remove();
  const drawn = [...fragment.children];
  if (table) {
    table.tBodies[0].append(fragment);
    at.remove();
  } else at.replaceWith(fragment);
  for (const one of drawn) for (const then of whenDrawn) then(one);
};

const drawIn = root => Promise.all(undrawn().filter(part => root.contains(part.holder)).map(draw));

// The part that has an element of this name.
const partWith = async name => {
  await unpackAll();
  return undrawn().find(part => part.fragment.getElementById(name));
};

// Cards are drawn when they come near the window.
const near = new IntersectionObserver(seen => {
  for (const one of seen) if (one.isIntersecting && parts.has(one.target)) draw(parts.get(one.target));
}, {rootMargin: '400px'});
for (const part of undrawn()) if (!part.holder.closest('table')) near.observe(part.holder);
