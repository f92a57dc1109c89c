// The script of the page, in parts, each with one concern. The page can be read without it.
'use strict';

const every = (selector, root = document) => [...root.querySelectorAll(selector)];

const made = (tag, given = {}, ...children) => {
  const element = Object.assign(document.createElement(tag), given);
  element.append(...children);
  return element;
};

// ---- The address: after # a name of something on the page, and after ? how the page is narrowed, by words and a time.
const address = {
  read() {
    const [name, rest = ''] = location.hash.slice(1).split('?');
    const given = new URLSearchParams(rest);
    let plain = name;
    try { plain = decodeURIComponent(name); } catch { /* a stranger's: it names nothing */ }
    return {name: plain, words: given.get('words') ?? '', time: given.get('time') ?? ''};
  },
  text({name, words, time}) {
    const rest = new URLSearchParams();
    if (time) rest.set('time', time);
    if (words) rest.set('words', words);
    return `#${encodeURIComponent(name)}${rest.size || `${rest}` ? `?${rest}` : ''}`;
  },
  // Where nothing changes the address stays: by an empty name, as #, a browser goes to the top.
  change(given) {
    const to = address.text({...address.read(), ...given});
    if (to !== (location.hash || '#')) history.replaceState(null, '', to);
  },
};
