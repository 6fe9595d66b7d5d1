
// ---- Choosing calls and steps ----

let tab = 'why';
const TABS = ['why', 'map', 'calls', 'data'];

function select(call, goes = true) {
  const before = selected;
  selected = call;
  const isOutside = it => it && !explaining.has(it);
  if (call && !isShown[call.number] && !filter.few) showAll();
  else if (filter.few && (isOutside(before) || isOutside(call))) refilter(call);
  sizeStage();
  if (call && goes) center(call);
  if (call) $('live').textContent = `Call ${call.number}, process ${call.process}, ${words(call, 120)}, ${spanWords(call)}`;
  renderCard();
  if (call) scrollTo(call);
  else renderRows();
  for (const item of document.querySelectorAll('ol.few li')) {
    item.classList.toggle('current', call !== null && Number(item.dataset.call) === call.number);
  }
  draw();
  writeLink();
}
function setStep(wanted, goes = true) {
  step = Math.max(0, Math.min(order.length, wanted));
  const call = step ? order[step - 1] : null;
  const text = call ? `${words(call, 60)} (call ${call.number}, p${call.process})` : 'before the first call';
  $('step').value = step;
  $('step-words').textContent = order.length ? `${step} of ${order.length}: ${text}` : 'No order is known.';
  $('step').setAttribute('aria-valuetext', $('step-words').textContent);
  if (tab === 'map') renderMap();
  if (call && goes) {
    const column = stepColumn(step - 1);
    const room = plotWidth() / view.scale;
    if (column < view.left + 1 || column > view.left + room - 2) moveView(column - room / 2, view.scale);
  }
  draw();
  writeLink();
}
// To the next place of a call that is shown.
function walk(by) {
  let place = step - 1 + by;
  while (place >= 0 && place < order.length && !isShown[order[place].number]) place += by;
  setStep(place < 0 ? 0 : place + 1);
}
// To the call before, or the next one, on the selected call's key.
function near(by) {
  const same = call => (isScan(selected) ? isScan(call) && call.key === selected.key : touches(call, selected.key));
  for (let i = selected.number + by; i >= 0 && i < calls.length; i += by) {
    if (same(calls[i])) return select(calls[i]);
  }
}
function along(by) {
  if (!selected) return select(wrong && isShown[wrong.number] ? wrong : shown[0] || null);
  const list = shownBy.get(selected.process) || [];
  const next = list[list.indexOf(selected) + by];
  if (next) select(next);
}
function across(by) {
  if (!selected) return along(0);
  const list = shownBy.get(lanes[laneOf(selected) + by]);
  if (!list) return;
  const far = call => Math.abs(call.from - selected.from);
  select(list.reduce((best, call) => (far(call) < far(best) ? call : best)));
}
let matchPlace = -1;
function nextMatch(by) {
  if (!matches.length) return;
  matchPlace = matches.includes(selected) ? matches.indexOf(selected) : by > 0 ? -1 : 0;
  select(matches[(matchPlace + by + matches.length) % matches.length]);
  scrollTo(selected);
}
function pick(name) {
  tab = name;
  for (const it of TABS) {
    $('tab-' + it).hidden = it !== name;
    $('to-' + it).setAttribute('aria-selected', it === name);
    $('to-' + it).tabIndex = it === name ? 0 : -1;
  }
  if (name === 'map') renderMap();
  if (name === 'data') renderData();
  if (name === 'calls') renderList();
  if (name === 'calls' && selected) scrollTo(selected);
}

// ---- Filters ----

function showFilter() {
  $('none').hidden = shown.length > 0;
  for (const it of $('kinds').children) it.setAttribute('aria-pressed', filter.few || filter.kinds.has(it.dataset.kind));
  $('show-few').setAttribute('aria-pressed', filter.few);
  $('show-all').setAttribute('aria-pressed', !filter.few && shown.length === calls.length);
  renderList();
}
function showAll() {
  Object.assign(filter, { few: false, kinds: new Set(KINDS), keys: null, processes: null });
  for (const name of ['keys', 'processes']) {
    $(name).value = '';
    $(name).classList.remove('fault');
  }
  refilter(selected);
  writeLink();
}
function showFew() {
  if (!explaining.size) return;
  filter.few = true;
  refilter();
  writeLink();
}
function showFault() {
  const call = wrong || (few[0] && few[0].call);
  if (!call) return;
  if (filter.few || !isShown[call.number]) showAll();
  select(call, false);
  focusOn(call);
  setStep(order.length, false);
}
function filterBy(name) {
  const ranges = readRanges($(name).value);
  $(name).classList.toggle('fault', ranges === undefined);
  if (ranges === undefined) return;
  filter.few = false;
  filter[name] = ranges;
  refilter();
  if (selected && isShown[selected.number]) center(selected);
  if (tab === 'map') renderMap();
  writeLink();
}
function toggleKind(kind) {
  if (filter.few) filter.kinds = new Set(KINDS);
  filter.few = false;
  if (!filter.kinds.delete(kind)) filter.kinds.add(kind);
  refilter();
}

// ---- Links: what is chosen, in the fragment of the address ----

let linkTimer = 0;
let isStarted = false;
function writeLink() {
  if (!isStarted) return;
  clearTimeout(linkTimer);
  linkTimer = setTimeout(() => {
    const parts = [];
    if (selected) parts.push('call=' + selected.number);
    if (order.length && step !== order.length) parts.push('step=' + step);
    if (filter.keys) parts.push('keys=' + encodeURIComponent($('keys').value));
    if (filter.processes) parts.push('processes=' + encodeURIComponent($('processes').value));
    if (!filter.few && explaining.size) parts.push('all');
    try {
      history.replaceState(null, '', '#' + parts.join('&'));
    } catch {
      // Some browsers let no file do that.
    }
  }, 150);
}
// Numbers are read, and anything else is passed over.
function readLink() {
  const asked = Object.create(null);
  for (const part of location.hash.slice(1).split('&')) {
    const [name, value = ''] = part.split('=', 2);
    try {
      asked[name] = decodeURIComponent(value);
    } catch {
      // It is no text.
    }
  }
  const number = name => (/^\d{1,6}$/.test(asked[name] || '') ? Number(asked[name]) : -1);
  if (asked.keys !== undefined || asked.processes !== undefined || asked.all !== undefined) {
    filter.few = false;
    for (const name of ['keys', 'processes']) {
      filter[name] = readRanges(asked[name] || '') || null;
      $(name).value = filter[name] ? asked[name] : '';
    }
    refilter();
  }
  if (number('step') >= 0) setStep(number('step'), false);
  const call = calls[number('call')] || calls[callAt[number('event')]];
  if (!call) return;
  select(call, false);
  if (!filter.few) focusOn(call);
}

// ---- Hands and keys ----

function showHelp(on) {
  $('help').hidden = !on;
  if (on) $('close-help').focus();
  else canvas.focus({ preventScroll: true });
}
function setTheme(theme) {
  document.documentElement.dataset.theme = theme;
  $('theme').textContent = theme === 'dark' ? 'Light' : 'Dark';
  readColours();
  draw();
}
const otherTheme = () => setTheme(document.documentElement.dataset.theme === 'dark' ? 'light' : 'dark');
function tip(text, x, y) {
  const box = $('tip');
  box.hidden = !text;
  box.textContent = text;
  const size = box.getBoundingClientRect();
  const fitsBelow = y + 18 + size.height <= innerHeight;
  box.style.left = Math.max(4, Math.min(innerWidth - size.width - 8, x + 14)) + 'px';
  box.style.top = (fitsBelow ? y + 18 : Math.max(4, y - size.height - 10)) + 'px';
}
function tipOf(call) {
  const it = fewOf.get(call);
  const notes = [call.note, call.answerNote].filter(note => note !== undefined);
  return [
    `call ${call.number} of process ${call.process}, ${spanWords(call)}`,
    words(call, 400),
    call.place < 0 ? '' : `place ${call.place + 1} of ${order.length}`,
    call === wrong ? 'goes wrong here' : '',
    ...(it ? it.misses : []).map(missed => `misses ${callWords(missed)} (call ${missed.number}, p${missed.process})`),
    ...notes.map(note => 'note ' + noteWords(note).slice(0, 200)),
  ].filter(Boolean).join('\n');
}
function tipOfStrip({ key, life }) {
  const writer = life.call ? `, written by ${callWords(life.call)} (call ${life.call.number}, p${life.call.process})` : ' from the start';
  return `key ${key} holds ${life.value}${writer}`;
}

function listenToCanvas() {
  let from = null;
  let isMoved = false;
  canvas.addEventListener('pointerdown', event => {
    from = [event.offsetX, event.offsetY];
    isMoved = false;
    canvas.setPointerCapture(event.pointerId);
  });
  canvas.addEventListener('pointermove', event => {
    const [x, y] = [event.offsetX, event.offsetY];
    if (!from) return hover(x, y, event);
    if (!isMoved && Math.abs(x - from[0]) + Math.abs(y - from[1]) <= 4) return;
    isMoved = true;
    canvas.classList.add('drag');
    tip('', 0, 0);
    moveView(view.left - (x - from[0]) / view.scale, view.scale, view.top - (y - from[1]));
    from = [x, y];
  });
  const end = event => {
    canvas.classList.remove('drag');
    if (from && !isMoved && event.type === 'pointerup') {
      const strip = stripAtPoint(event.offsetX, event.offsetY);
      select(strip ? strip.life.call : callAtPoint(event.offsetX, event.offsetY), false);
      canvas.focus({ preventScroll: true });
    }
    from = null;
  };
  canvas.addEventListener('pointerup', end);
  canvas.addEventListener('pointercancel', end);
  canvas.addEventListener('pointerleave', () => {
    hovered = null;
    tip('', 0, 0);
    draw();
  });
  canvas.addEventListener('wheel', turnWheel, { passive: false });
}
function hover(x, y, event) {
  const call = callAtPoint(x, y);
  const strip = call ? null : stripAtPoint(x, y);
  if (call !== hovered) draw();
  hovered = call;
  canvas.style.cursor = call || strip ? 'pointer' : '';
  tip(call ? tipOf(call) : strip ? tipOfStrip(strip) : '', event.clientX, event.clientY);
}
// The wheel zooms; with Shift it moves, and with Alt it scrolls the lanes. Of one column it scrolls the page, unless Ctrl is held.
function turnWheel(event) {
  if (NARROW.matches && !event.ctrlKey && !event.shiftKey && !event.altKey) return;
  event.preventDefault();
  const by = (event.deltaMode ? 16 : 1) * (event.deltaX || event.deltaY);
  const isAcross = event.shiftKey || Math.abs(event.deltaX) > Math.abs(event.deltaY);
  if (isAcross) moveView(view.left + by / view.scale, view.scale);
  else if (event.altKey) moveView(view.left, view.scale, view.top + by);
  else zoom(Math.exp(-by * 0.0022), event.offsetX);
}
function listenToOverview() {
  let isDragged = false;
  const go = event => {
    const box = overview.getBoundingClientRect();
    const column = ((event.clientX - box.left) / box.width) * columns;
    moveView(column - plotWidth() / view.scale / 2, view.scale);
  };
  overview.onpointerdown = event => {
    isDragged = true;
    overview.setPointerCapture(event.pointerId);
    if (view.scale < leastScale() * 1.5 && columns > 80) view.scale = Math.min(26, leastScale() * 8);
    go(event);
  };
  overview.onpointermove = event => isDragged && go(event);
  overview.onpointerup = overview.onpointercancel = () => {
    isDragged = false;
  };
}

const KEYS = {
  ',': () => walk(-1),
  '.': () => walk(1),
  '+': () => zoom(1.4),
  '=': () => zoom(1.4),
  '-': () => zoom(1 / 1.4),
  0: () => {
    fitView();
    draw();
  },
  f: showFault,
  e: showFew,
  a: showAll,
  d: otherTheme,
  n: () => nextMatch(1),
  N: () => nextMatch(-1),
  '/': () => $('search').select(),
  '?': () => showHelp(true),
  Escape: () => (matches.length ? search('') : select(null)),
};
const ARROWS = { ArrowRight: () => along(1), ArrowLeft: () => along(-1), ArrowDown: () => across(1), ArrowUp: () => across(-1) };
function pressKey(event) {
  if (event.ctrlKey || event.metaKey || event.altKey) return;
  if (!$('help').hidden) {
    if (event.key === 'Escape' || event.key === '?') showHelp(false);
    return;
  }
  if (event.target.tagName === 'INPUT' && event.target.type !== 'range') {
    if (event.key === 'Escape') canvas.focus();
    return;
  }
  const isFree = event.target === canvas || event.target === document.body;
  const act = KEYS[event.key] || KEYS[event.key.toLowerCase()] || (isFree && ARROWS[event.key]);
  if (!act) return;
  event.preventDefault();
  act();
}
function pressInTabs(event) {
  const by = { ArrowRight: 1, ArrowLeft: -1 }[event.key];
  if (!by) return;
  pick(TABS[(TABS.indexOf(tab) + by + TABS.length) % TABS.length]);
  $('to-' + tab).focus();
  event.preventDefault();
}
function pressInList(event) {
  const by = { ArrowDown: 1, ArrowUp: -1, PageDown: 15, PageUp: -15 }[event.key];
  if (!by || !listed.length) return;
  const place = selected ? listed.indexOf(selected) + by : 0;
  select(listed[Math.max(0, Math.min(listed.length - 1, place))]);
  scrollTo(selected);
  event.preventDefault();
  event.stopPropagation();
}
function pressInSearch(event) {
  if (event.key === 'Escape') search('');
  if (event.key !== 'Enter') return;
  if ($('search').value.trim() !== searched) searchNow();
  nextMatch(event.shiftKey ? -1 : 1);
}
let searchTimer = 0;
let searched = '';
function searchNow() {
  clearTimeout(searchTimer);
  searched = $('search').value.trim();
  search($('search').value);
}

function listenToButtons() {
  const actions = { 'show-few': showFew, 'show-all': showAll, 'show-fault': showFault, 'clear-filter': showAll, theme: otherTheme };
  for (const [id, act] of Object.entries(actions)) $(id).onclick = act;
  for (const name of ['keys', 'processes']) $(name).oninput = () => filterBy(name);
  for (const name of TABS) $('to-' + name).onclick = () => pick(name);
  $('to-why').parentNode.onkeydown = pressInTabs;
  $('first').onclick = () => setStep(0);
  $('back').onclick = () => walk(-1);
  $('forward').onclick = () => walk(1);
  $('last').onclick = () => setStep(order.length);
  $('step').oninput = () => {
    setStep(Number($('step').value));
    if (tab !== 'map') pick('map');
  };
  $('search').onkeydown = pressInSearch;
  $('search').oninput = () => {
    clearTimeout(searchTimer);
    searchTimer = setTimeout(searchNow, 120);
  };
  $('list').onscroll = renderRows;
  $('list').onkeydown = pressInList;
  $('show-help').onclick = () => showHelp(true);
  $('close-help').onclick = () => showHelp(false);
  $('help').onclick = event => event.target === $('help') && showHelp(false);
  document.addEventListener('keydown', pressKey);
}
function listenToWindow() {
  const dark = matchMedia('(prefers-color-scheme: dark)');
  setTheme(dark.matches ? 'dark' : 'light');
  dark.addEventListener('change', () => setTheme(dark.matches ? 'dark' : 'light'));
  addEventListener('hashchange', readLink);
  new ResizeObserver(() => {
    resize();
    if (filter.few) fitView();
  }).observe($('stage'));
  let before = null;
  const print = on => {
    printing = on;
    if (on) before = document.documentElement.dataset.theme;
    setTheme(on ? 'light' : before);
    canvas.style.width = on ? '100%' : '';
    resize();
    paint();
  };
  addEventListener('beforeprint', () => print(true));
  addEventListener('afterprint', () => print(false));
}

// ---- The start ----

const NARROW = matchMedia('(max-width: 1000px)');
function headline() {
  if (wrong) return `Goes wrong at event ${wrong.to}: ${words(wrong, 90)} (call ${wrong.number} of process ${wrong.process})`;
  if (verdict === 'yes') return order.length ? `One order of ${many(order.length, 'call')} explains every response.` : 'No call has to have an order.';
  if (verdict === 'no') return `The ${many(judged.calls.length, 'call')} at ${segmentWords} have no order.`;
  if (few.length) return `${many(few.length, 'call')} of it have no order on their own. At which event it goes wrong is not known.`;
  return locatedVerdict === 'yes' ? 'So says locate; judge is undecided.' : 'Its search met more states than the budget.';
}
function renderHeader() {
  $('badge').textContent = { yes: 'Linearizable', no: 'Not linearizable', undecided: 'Undecided' }[shownVerdict];
  $('badge').className = shownVerdict;
  $('headline').textContent = headline();
  const counts = [many(calls.length, 'call'), many(processes.length, 'process'), many(keys.length, 'key')];
  $('facts').textContent = [...counts, 'overlap ' + overlap].join(' · ');
  document.title = `${$('badge').textContent} · ${counts[0]} · Potzendai`;
  for (const kind of KINDS.filter(it => calls.some(call => call.kind === it))) {
    const mark = el('i', { class: 'mark-' + kind });
    $('kinds').append(button([mark, kind], () => toggleKind(kind), { class: 'kind', 'data-kind': kind }));
  }
  $('step').max = order.length;
  for (const id of ['step', 'first', 'back', 'forward', 'last']) $(id).disabled = !order.length;
  $('show-few').disabled = !explaining.size;
  $('show-fault').disabled = !wrong && !few.length;
}

renderHeader();
listenToButtons();
listenToCanvas();
listenToOverview();
listenToWindow();
resize();
refilter();
renderWhy();
setStep(order.length, false);
pick('why');
readLink();
isStarted = true;
