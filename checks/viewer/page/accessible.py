"""What a page must be for those who do not see it, see it badly, or have no mouse: rules of this check's own, in the
style of axe. Each is a piece of script that returns what breaks it."""

from checks.kit.browser import Browser
from checks.kit.checking import Fail, compare

# What all rules need: what is shown, its name, and the contrast of two colours by WCAG 2.
COMMON = r"""
const shown = one => one.checkVisibility({visibilityProperty: true}) && !one.closest('[hidden]');
const all = selector => [...document.querySelectorAll(selector)].filter(shown);
const nameOf = one => (one.getAttribute('aria-label') || (one.getAttribute('aria-labelledby') ?? '').split(' ')
  .map(id => document.getElementById(id)?.textContent ?? '').join(' ').trim() || one.textContent.trim()
  || one.getAttribute('title') || one.placeholder || '');
const told = one => `${one.tagName.toLowerCase()} ${one.className?.baseVal ?? one.className} `
  + nameOf(one).slice(0, 40);
const canvas = document.createElement('canvas').getContext('2d', {willReadFrequently: true});
const rgb = colour => {
  canvas.clearRect(0, 0, 1, 1);
  canvas.fillStyle = colour;
  canvas.fillRect(0, 0, 1, 1);
  return [...canvas.getImageData(0, 0, 1, 1).data];
};
const light = colour => rgb(colour).slice(0, 3).map(one => one / 255)
  .map(one => one <= 0.04045 ? one / 12.92 : ((one + 0.055) / 1.055) ** 2.4)
  .reduce((sum, one, at) => sum + one * [0.2126, 0.7152, 0.0722][at], 0);
const contrast = (one, other) => {
  const [dark, bright] = [light(one), light(other)].sort((a, b) => a - b);
  return (bright + 0.05) / (dark + 0.05);
};
const behind = one => {
  for (let at = one; at; at = at.parentElement) {
    const colour = getComputedStyle(at).backgroundColor;
    if (rgb(colour)[3] > 250) return colour;
  }
  return getComputedStyle(document.body).backgroundColor;
};
const some = found => [...new Set(found)].slice(0, 5);
"""

RULES = {
    "headings that skip a level": """
        const levels = all('h1, h2, h3, h4').map(one => Number(one.tagName[1]));
        return levels.filter((one, at) => at ? one > levels[at - 1] + 1 : one !== 1);""",
    "landmarks: one header, main and named nav": """
        const navs = all('nav');
        return all('main').length === 1 && all('header').length === 1 && navs.length === 1 && nameOf(navs[0]) ? [] :
          [all('main').length, all('header').length, navs.length];""",
    "what can be pressed and has no name": """
        return some(all('a[href], button, input, select, summary, [role=button], [role=slider], [tabindex="0"]')
          .filter(one => !nameOf(one)).map(told));""",
    "what can be reached and has no role": """
        return some(all('[tabindex="0"]').filter(one => !one.hasAttribute('role')
          && !['A', 'BUTTON', 'INPUT', 'SUMMARY'].includes(one.tagName)).map(told));""",
    "roles that are none": """
        const known = ['button', 'region', 'img', 'slider', 'status', 'dialog'];
        return some(all('[role]').filter(one => !known.includes(one.getAttribute('role'))).map(told));""",
    "sliders without their values": """
        return all('[role=slider]').filter(one => ['min', 'max', 'now', 'text']
          .some(name => !one.getAttribute(`aria-value${name}`))).map(told);""",
    "pictures without words": """
        return some(all('svg').filter(one => one.getAttribute('role') !== 'img' || !one.getAttribute('aria-label'))
          .map(told));""",
    "tables without a caption, and heads without a scope": """
        return some([...all('table').filter(one => !one.caption?.textContent.trim()),
          ...all('th').filter(one => !['col', 'row'].includes(one.scope))].map(told));""",
    "sorted heads without a button, or a sign that is known": """
        return some(all('table.sorted > thead th').filter(one => !one.querySelector('button')
          || !['none', 'ascending', 'descending'].includes(one.getAttribute('aria-sort'))).map(told));""",
    "names of elements that are there twice": """
        const ids = [...document.querySelectorAll('[id]')].map(one => one.id);
        return some(ids.filter((one, at) => ids.indexOf(one) !== at));""",
    "labels that name nothing": """
        return some([...document.querySelectorAll('[aria-labelledby]')]
          .filter(one => !document.getElementById(one.getAttribute('aria-labelledby'))).map(told));""",
    "text with a contrast under 4.5": """
        const texts = all('main *, header *, nav *, footer *, .strip *').filter(one => !one.closest('svg')
          && [...one.childNodes].some(it => it.nodeType === 3 && it.data.trim()));
        return some(texts.map(one => [contrast(getComputedStyle(one).color, behind(one)), one])
          .filter(([ratio]) => ratio < 4.5).map(([ratio, one]) => `${ratio.toFixed(2)} ${told(one)}`));""",
    "borders with a contrast under 3": """
        const lined = all('button, input, .group, .counts div, .rule, .verdict, .mark, a.link, details.tree');
        return some(lined.map(one => {
          const style = getComputedStyle(one);
          return [contrast(style.borderTopColor, behind(one.parentElement)), one, parseFloat(style.borderTopWidth)];
        }).filter(([ratio, , width]) => width > 0 && ratio < 3)
          .map(([ratio, one]) => `${ratio.toFixed(2)} ${told(one)}`));""",
    "bars with a contrast under 3": """
        const bars = all('.lane rect').map(one =>
          [contrast(getComputedStyle(one).fill, behind(one.closest('.lane'))), one.getAttribute('class')]);
        return some(bars.filter(([ratio]) => ratio < 3).map(([ratio, sort]) => `${ratio.toFixed(2)} ${sort}`));""",
    "what is wider than the window": """
        const most = document.documentElement.clientWidth;
        const wide = all('body *').filter(one => !one.closest('.scroll, pre, caption') && !one.closest('svg')
          && one.getBoundingClientRect().right > most + 1);
        return some([...wide.map(told), ...(document.documentElement.scrollWidth > most ? ['the page'] : [])]);""",
    "heads and tables wider than the window": """
        const most = document.documentElement.clientWidth;
        return some(all('table, thead').map(one => [one.getBoundingClientRect().width, one])
          .filter(([width, one]) => width > most && !one.closest('pre')).map(([width, one]) =>
            `${Math.round(width)} ${nameOf(one.closest('.scroll') ?? one).slice(0, 40)}`));""",
    "an order of focus that is another than that of the page": """
        return some([...document.querySelectorAll('[tabindex]')].filter(one => one.tabIndex > 0).map(told));"""}


def check_accessible(browser: Browser, what: str, fail: Fail) -> None:
    """Checks what the browser shows now."""
    for rule, script in RULES.items():
        compare(f"{what}: {rule}", browser.js(f"(() => {{ {COMMON} {script} }})()"), [], fail)


def check_focus(browser: Browser, what: str, fail: Fail, most: int = 40) -> None:
    """With the key Tab all is reached in the order of the page, of much the first ones, and what is reached is seen."""
    browser.js("document.activeElement.blur(); scrollTo(0, 0)")
    due = browser.js("[...document.querySelectorAll('a[href], button, input, select, summary, [tabindex=\"0\"]')]"
                     ".filter(one => one.checkVisibility()).length")
    places, unseen = [], []
    for _ in range(most):
        browser.key("Tab")
        seen = browser.js("""(() => { const one = document.activeElement; if (one === document.body) return null;
          const box = one.getBoundingClientRect(), style = getComputedStyle(one);
          const at = [...document.querySelectorAll('*')].indexOf(one);
          return [at, box.width > 0 && box.height > 0 && (style.outlineStyle !== 'none'
            || getComputedStyle(one, '::after').backgroundColor !== 'rgba(0, 0, 0, 0)'),
            one.outerHTML.slice(0, 80)]; })()""")
        if seen is None or seen[0] in places:
            break  # it begins again
        places.append(seen[0])
        if not seen[1]:
            unseen.append(seen[2])
    compare(f"{what}: what Tab reaches, in order", places, sorted(places), fail)
    compare(f"{what}: what is reached and not seen", unseen, [], fail)
    compare(f"{what}: how many Tab reaches", len(places), min(due, most), fail)
