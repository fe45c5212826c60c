// Scripts for the tests' page in Chromium; chromium.py calls them by their names.

// How many edits were answered, of how many all is shown, and what the desk says.
const state = () => [document.body.dataset.round || '0', document.body.dataset.whole || '0', document.getElementById('state').textContent];

// What is hard to read or to hit: text on a ground of nearly its own colour, targets below 24 pixels, editors in no landmark.
function hard() {
  const channel = it => it / 255 <= 0.04045 ? it / 255 / 12.92 : ((it / 255 + 0.055) / 1.055) ** 2.4;
  const light = ([r, g, b]) => 0.2126 * channel(r) + 0.7152 * channel(g) + 0.0722 * channel(b);
  const color = text => text.match(/[0-9.]+/g).map(Number);
  const ground = it => { const here = color(getComputedStyle(it).backgroundColor); return here[3] === 0 && it.parentElement ? ground(it.parentElement) : here; };
  const contrast = it => { const both = [light(color(getComputedStyle(it).color)), light(ground(it))].sort((a, b) => b - a); return (both[0] + 0.05) / (both[1] + 0.05); };
  const shown = it => it.getClientRects().length > 0 && !it.closest('svg, .CodeMirror-measure');
  const own = it => [...it.childNodes].some(one => one.nodeType === 3 && one.data.trim());
  const size = it => it.getBoundingClientRect();
  return [...document.querySelectorAll('body *')].filter(it => shown(it) && own(it) && contrast(it) < 4.5).map(it => `${contrast(it).toFixed(1)}: ${it.textContent}`)
    .concat([...document.querySelectorAll('button, select, summary, a[href], .lines .call')].filter(it => shown(it) && (size(it).height < 24 || size(it).width < 24))
      .map(it => `${size(it).width} x ${size(it).height}: ${it.textContent}`))
    .concat([...document.querySelectorAll('.CodeMirror')].filter(it => !it.closest('section[aria-label], main')).map(() => 'an editor in no landmark'));
}

// How wide a page is, and where its editors end and its parts begin.
function wide() {
  const end = it => it ? it.getBoundingClientRect() : {right: 0, bottom: 0}, desk = end(document.getElementById('desk')), parts = end(document.getElementById('page'));
  return [document.documentElement.scrollWidth, parts.left >= desk.right || parts.top >= desk.bottom, parts.width];
}

// Calls `done` after an edit whose replies are shown, and then all: with how long both took, and what the desk says.
function watched(done) {
  const {dataset} = document.body, before = Number(dataset.round || 0), began = performance.now();
  let replies = null;
  const watch = new MutationObserver(() => {
    if (replies === null && Number(dataset.round) > before) replies = performance.now() - began;
    if (replies === null || dataset.whole !== dataset.round) return;
    watch.disconnect();
    done([replies, performance.now() - began, document.getElementById('state').textContent]);
  });
  watch.observe(document.body, {attributes: true});
}

const texts = selector => [...document.querySelectorAll(selector)].map(it => it.textContent);

// How many rules are marked, and what is said of the route.
const marked = () => [document.querySelectorAll('mark, .ruled').length, document.getElementById('decided').textContent];

// Whether the verdict and the matrix are on the first screen.
const isFirst = () => ['#verdict', '#matrix'].map(it => document.querySelector(it)).filter(it => it).every(it => it.getBoundingClientRect().bottom < innerHeight);

// The variables of the style sheets that have no value.
const unset = () => [...new Set(document.documentElement.outerHTML.match(/var\(--[\w-]+\)/g))]
  .filter(it => !getComputedStyle(document.documentElement).getPropertyValue(it.slice(4, -1)));

// Whether a strip of budgets has two parts.
const isSplit = () => [...document.querySelectorAll('.strip')].some(it => it.querySelectorAll('.suffices').length > 1);

// What is under each line of the scenario.
function under() {
  const printed = [];
  desk.scenario.eachLine(it => { printed.push((it.widgets || []).map(one => one.node.textContent)); });
  return printed;
}

// How many links of the contents and of the verdict lead nowhere.
const broken = () => [...document.querySelectorAll('nav a, .verdict a')].filter(it => !document.querySelector(it.getAttribute('href'))).length;

const ground = () => getComputedStyle(document.body).backgroundColor;

// Whether the page is left without a question.
function leaves() {
  const it = new Event('beforeunload', {cancelable: true});
  window.dispatchEvent(it);
  return !it.defaultPrevented;
}
