// ---- The strip of time: a part of it is chosen by the mouse, or by two handles with the keys.
const strip = document.querySelector('.strip');
const whole = strip ? Number(strip.dataset.length) : 0;
const unit = strip?.dataset.unit;
// In the address a time is in seconds, and a frame or a build by its number.
const scale = unit === 'µs' ? 1e6 : 1;
const clamp = at => Math.min(Math.max(at, 0), whole);

let chosen = null;
const timeWord = span => span ? `${span[0] / scale}-${span[1] / scale}` : '';
const spanOf = word => {
  const found = /^([0-9.]+)-([0-9.]+)$/.exec(word);
  if (!found || !strip) return null;
  const [begin, end] = [clamp(found[1] * scale), clamp(found[2] * scale)];
  return end >= begin ? [begin, end] : null;
};
const nameOf = at => unit === 'µs' ? `${(at / 1e6).toFixed(3)} s`
  : unit === 'builds' ? lineOf(strip.querySelectorAll('.ticks > span')[Math.min(Math.floor(at), whole - 1)])
    : `frame ${Math.round(at).toLocaleString('en')} of them`;

const makeStrip = changed => {
  if (!strip) return () => {};
  const area = strip.querySelector('.lanes');
  const shade = made('div', {className: 'shade', hidden: true});
  const told = made('span', {className: 'chosen'});
  const all = made('button', {type: 'button', hidden: true}, 'all of the time');
  const handles = ['begin', 'end'].map((which, side) => {
    const handle = made('div', {className: 'handle', tabIndex: 0});
    handle.setAttribute('role', 'slider');
    handle.setAttribute('aria-label', `${which} of what is shown`);
    handle.setAttribute('aria-valuemin', 0);
    handle.setAttribute('aria-valuemax', whole);
    handle.addEventListener('keydown', event => {
      const step = {ArrowLeft: -1, ArrowDown: -1, ArrowRight: 1, ArrowUp: 1, PageDown: -10, PageUp: 10}[event.key];
      const from = chosen ?? [0, whole], to = [...from];
      const least = unit === 'builds' ? 1 : whole / 100;
      if (step) to[side] = clamp(from[side] + step * least);
      else if (event.key === 'Home') to[side] = side ? from[0] : 0;
      else if (event.key === 'End') to[side] = side ? whole : from[1];
      else return;
      event.preventDefault();
      if (to[0] <= to[1]) choose(to);
    });
    return handle;
  });
  const place = at => `${100 * at / whole}%`;
  const show = () => {
    const [begin, end] = chosen ?? [0, whole];
    shade.hidden = all.hidden = !chosen;
    shade.style.left = place(begin);
    shade.style.width = place(end - begin);
    handles.forEach((handle, side) => {
      handle.style.left = place(side ? end : begin);
      handle.setAttribute('aria-valuenow', Math.round(side ? end : begin));
      handle.setAttribute('aria-valuetext', nameOf(side ? end : begin));
    });
    told.textContent = chosen ? `Shown: what was from ${nameOf(begin)} to ${nameOf(end)}. ` : '';
  };
  const choose = span => {
    chosen = span && (span[0] > 0 || span[1] < whole) ? span : null;
    show();
    changed();
  };
  all.addEventListener('click', () => { choose(null); handles[0].focus(); });
  const over = made('div', {className: 'over'}, shade, ...handles);
  area.append(over);
  strip.append(made('p', {className: 'dim'}, told, all));
  const at = event => {
    const box = over.getBoundingClientRect();
    return clamp((event.clientX - box.left) / box.width * whole);
  };
  const rounded = span => unit === 'builds' ? [Math.floor(span[0]), Math.ceil(span[1])] : span.map(Math.round);
  let from = null;
  over.addEventListener('pointerdown', event => {
    if (event.button) return;
    const side = handles.indexOf(event.target);
    from = side < 0 || !chosen ? at(event) : chosen[1 - side];
    over.setPointerCapture(event.pointerId);
    event.preventDefault();
  });
  over.addEventListener('pointermove', event => {
    if (from === null) over.title = barAt(event.clientX, event.clientY)?.textContent ?? '';
    if (from === null || Math.abs(at(event) - from) < whole / 200) return;
    chosen = rounded([Math.min(from, at(event)), Math.max(from, at(event))]);
    show();
  });
  over.addEventListener('pointerup', event => {
    if (from === null) return;
    const is_drag = Math.abs(at(event) - from) >= whole / 200;
    from = null;
    if (is_drag) choose(chosen);
    else openAt(event.clientX, event.clientY);
  });
  over.addEventListener('pointercancel', () => { from = null; });
  // A bar says what it is, and opens that when it is pressed.
  const barAt = (x, y) => document.elementsFromPoint(x, y).find(one => one.tagName === 'rect');
  const openAt = (x, y) => {
    const bar = barAt(x, y);
    if (!bar?.dataset.of) return;
    history.pushState(null, '', address.text({...address.read(), name: bar.dataset.of}));
    follow();
  };
  show();
  return span => { chosen = span; show(); };
};
