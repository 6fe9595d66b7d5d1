
// ---- The panels: every text reaches the page as text ----

// Makes an element. Attributes that begin with "on" are listeners; what it contains may be nested lists.
function el(tag, attributes, ...content) {
  const made = document.createElement(tag);
  for (const [name, value] of Object.entries(attributes || {})) {
    if (name.startsWith('on')) made.addEventListener(name.slice(2), value);
    else made.setAttribute(name, value);
  }
  made.append(...content.flat(9).filter(it => it !== null && it !== undefined && it !== ''));
  return made;
}
const mono = (text, style = '') => el('span', { class: `mono ${style}` }, text);
const soft = text => el('span', { class: 'soft' }, text);
const bold = (text, style) => el('b', { class: `mono ${style}` }, text);
const button = (text, onclick, more = {}) => el('button', { onclick, ...more }, text);
const isBad = text => el('b', { class: 'bad' }, text);

function callButton(call, text = callWords(call)) {
  const title = `call ${call.number} of process ${call.process}, ${spanWords(call)}`;
  return button(text, () => select(call), { class: 'link mono', title });
}
const named = call => [callButton(call), soft(` call ${call.number}, p${call.process}`)];
function namedList(list, count = 6) {
  const parts = list.slice(0, count).map((call, i) => [i ? ', ' : '', named(call)]);
  return [parts, list.length > count ? ` and ${list.length - count} more` : ''];
}
function table(heads, rows) {
  return el('table', {}, el('tr', {}, heads.map(head => el('th', {}, head))), rows);
}
// Two lists of pairs, at the keys at which they differ.
function differences(got, would, heads) {
  const [a, b] = [new Map(got), new Map(would)];
  const cell = text => el('td', { class: 'mono' }, text);
  const row = key => el('tr', { class: 'differs' }, cell(key), cell(say(a.get(key))), cell(say(b.get(key))));
  return table(['key', ...heads], differingKeys(got, would).slice(0, 200).map(row));
}

// ---- Why ----

function renderWhy() {
  const sections = [whyYes(), whyUndecided(), whyWrong(), whyFew(), whyFront(), whyOrigins(), whyOrder()];
  $('tab-why').replaceChildren(...sections.flat(9).filter(Boolean));
}
function whyYes() {
  if (shownVerdict !== 'yes' || !order.length) return [];
  const pending = order.length < calls.length ? ' The others are pending and left out.' : '';
  const thin = overlap < 0.1 ? ' Of calls that hardly overlap, a yes says little.' : '';
  return [
    el('h2', {}, 'It is linearizable'),
    el('p', {}, `One order explains every response. It has ${order.length} of the ${many(calls.length, 'call')}.${pending}`),
    el('p', {}, 'Each circle is the place of a call in that order. Step through it below the timeline: Map shows what the map then holds.'),
    el('p', { class: thin ? 'bad' : 'soft' }, `As a call began, ${overlap} others were open, on average.${thin}`),
  ];
}
function whyUndecided() {
  if (verdict !== 'undecided') return [];
  let other = `The other search, of locate, says ${locatedVerdict}.`;
  if (locatedVerdict === 'yes') other += order.length ? ' The history is linearizable.' : ' It reports no order.';
  if (locatedVerdict === 'undecided') other += ` It ended at event ${located.event}, the response of call ${located.call}.`;
  return [
    el('h2', {}, 'judge is undecided'),
    el('p', {}, `The search of the calls at ${segmentWords} met more states than its budget. `, other),
  ];
}
function whyWrong() {
  if (!wrong) return [];
  const next = front && front.next.length === 1 && front.next[0].call === wrong ? front.next[0] : null;
  return [
    el('h2', {}, 'Where it goes wrong'),
    el(
      'p',
      {},
      `The events before event ${wrong.to} have a linearization. With it they have none, whatever follows. `,
      'It is the response of ',
      named(wrong),
      ': ',
      mono(say(wrong.answer).slice(0, 300)),
      '.',
    ),
    next ? whyNext(next) : null,
    el('p', { class: 'noprint' }, button('Show it among all calls', showFault)),
  ];
}
// What the map would answer, in one sentence.
function whyNext({ answer, would }) {
  const keysThat = differingKeys(answer, would);
  if (!keysThat.length) {
    if (say(answer) === say(would)) return null;
    const parts = [bold(say(would).slice(0, 200), 'good'), ', not ', bold(say(answer).slice(0, 200), 'bad'), '.'];
    return el('p', {}, 'After the calls below, the map would answer ', parts);
  }
  const [got, wanted] = [new Map(answer), new Map(would)];
  const parts = keysThat.slice(0, 3).map((key, i) => {
    const comma = i ? ', ' : '';
    return [comma, bold(say(wanted.get(key)), 'good'), ' at key ', mono(key), ', not ', bold(say(got.get(key)), 'bad')];
  });
  const rest = keysThat.length > 3 ? `, and differ at ${keysThat.length - 3} more keys` : '';
  return el('p', {}, 'After the calls below, the map would report ', parts, rest, '.');
}
function whyFew() {
  if (!few.length) return [];
  const title = few.length === 1 ? 'This call has no order on its own' : `These ${few.length} calls have no order on their own`;
  const isLeast = few.length > 1 && few.every(it => it.reason === 'order');
  const least = isLeast ? 'Without any one of them, the others have an order. ' : '';
  const grey = few.some(isLeftOut) ? 'Responses in grey are not needed to show it.' : '';
  return [
    el('h2', {}, title),
    beginWords(),
    el('ol', { class: 'few' }, few.map(fewItem)),
    least + grey && el('p', { class: 'soft' }, least + grey),
  ];
}
// The values from which the few calls begin, and who wrote them.
function beginWords(count = 12) {
  const part = ({ key, value, writer }) => [`key ${key} has `, mono(say(value)), writer ? [', written by ', named(writer)] : ''];
  if (fewBegin.length < 2) return fewBegin.map(it => el('p', {}, 'They begin where ', part(it), '.'));
  const rest = fewBegin.length > count ? el('li', {}, `${fewBegin.length - count} more.`) : '';
  return [el('p', {}, 'They begin where:'), el('ul', {}, fewBegin.slice(0, count).map(it => el('li', {}, part(it), '.')), rest)];
}
const REASONS = {
  spent: 'Kept, since without it the search is beyond its budget.',
  held: 'Kept, since a replace without a response waits for a value that this may have written.',
};
function fewItem(it) {
  const { call } = it;
  const answer = isLeftOut(it) ? say(call.answer).slice(0, 60) : say(it.answer).slice(0, 400);
  return el(
    'li',
    { class: call === wrong ? 'wrong' : '', 'data-call': call.number },
    callButton(call),
    isOpen(it) ? '' : mono(': ' + answer, isLeftOut(it) ? 'faint' : ''),
    soft(` call ${call.number}, p${call.process}`),
    isOpen(it) ? el('div', { class: 'soft' }, 'It has no response.') : '',
    it.misses.map(missed => {
      const over = `, which was over at event ${missed.to}, before this began at ${call.from}.`;
      return el('div', { class: 'bad' }, 'misses ', named(missed), over);
    }),
    REASONS[it.reason] ? el('div', { class: 'soft' }, REASONS[it.reason]) : '',
  );
}
function whyFront() {
  if (!front) return [];
  const steps = front.calls.map((call, i) => [i ? ', ' : '', `${i + 1}. `, callButton(call)]);
  const holds = front.holds.length ? mono(say(front.holds).slice(0, 600)) : 'nothing';
  const next = front.next.length > 1 ? 'What could come next:' : 'Only this could come next:';
  return [
    el('h2', {}, 'How far an order of them gets'),
    el('p', {}, steps.length ? steps : 'Not one of them can come first.'),
    el('p', {}, 'The map then holds ', holds, '. ', next),
    front.next.map(nextItem),
  ];
}
function nextItem({ call, answer, would }) {
  const isFitting = say(answer) === say(would) || (answer instanceof Word && answer.text === 'open');
  if (isFitting) return el('p', {}, callButton(call), ': it fits here. The search ended before it, with its budget spent.');
  if (differingKeys(answer, would).length) {
    return [el('p', {}, callButton(call), ', but it differs:'), differences(answer, would, ['it answered', 'the map would'])];
  }
  const parts = [': it answered ', bold(say(answer), 'bad'), ', the map would answer ', bold(say(would), 'good'), '.'];
  return el('p', {}, callButton(call), parts);
}
function whyOrigins() {
  if (!origins.length) return [];
  const nobody = 'no call that was recorded. A starting pair was forgotten, a thread was not recorded, or the map makes up values';
  const rows = origins.map(({ key, value, start, puts }) => {
    const from = [puts.length ? namedList(puts) : '', puts.length && start ? ', and ' : '', start ? 'the start' : ''];
    return el('p', {}, mono(value), ' at key ', mono(key), ': ', puts.length || start ? from : isBad(nobody), '.');
  });
  return [el('h2', {}, 'Who wrote what they read'), rows];
}
function whyOrder() {
  const sections = [];
  if (shownVerdict !== 'yes' && order.length) {
    const whose = orderIsOfFew
      ? 'The circles are the longest order of these few calls that the search met.'
      : `The circles are one linearization of the events before event ${orderedTo}. Their numbers are places in it, from 1, not numbers of calls. There may be others.`;
    sections.push(el('h2', {}, 'The circles'), el('p', {}, whose, ' Step through it below the timeline: Map shows what the map then holds.'));
  }
  if (judged.calls && judged.calls.length < calls.length) {
    const count = many(judged.calls.length, 'call');
    sections.push(el('p', { class: 'soft' }, `judge names the ${count} at ${segmentWords}. No scan joins them to others, so they are judged apart.`));
  }
  if (replayFault) {
    sections.push(el('p', { class: 'bad' }, `This page replays the order otherwise than the program: ${replayFault}. Believe the program, and report it.`));
  }
  return sections;
}

// ---- Map: what it holds at a step of the order ----

function renderMap() {
  if (!order.length || (orderIsOfFew && replayFault)) {
    $('tab-map').replaceChildren(el('p', { class: 'soft' }, 'No order is known, so this page cannot say what the map held.'));
    return;
  }
  const call = step ? order[step - 1] : null;
  const where = call
    ? [`After ${step} of ${many(order.length, 'call')}. The last of them is `, named(call), ': ', mono(answerWords(call).slice(0, 100)), '.']
    : 'Before the first call.';
  const whose = orderIsOfFew ? el('p', { class: 'soft' }, 'These are the few calls of Why, not all calls.') : '';
  const rows = keys.filter(key => meets(filter.few ? null : filter.keys, key, key)).map(key => mapRow(key, call));
  const held = rows.filter(row => row.isHeld).length;
  const kept = rows.filter(row => row.isHeld || row.isTouched || rows.length <= 40);
  const shownRows = kept.filter((row, i) => i < 250 || row.isTouched).map(row => row.element);
  const more = kept.length > 250 ? el('p', { class: 'soft' }, 'The first 250 keys are shown. Filter keys to see others.') : '';
  $('tab-map').replaceChildren(
    el('p', {}, where),
    whose,
    ...mapAtEnd(),
    el('h2', {}, `The map: ${many(held, 'key')}`),
    table(['key', 'value', 'written by'], shownRows),
    more,
  );
}
function mapRow(key, call) {
  const life = lifeAt(key, step);
  const isHeld = Boolean(life && life.value !== null);
  const isTouched = Boolean((life && step && life.step === step) || (call && !isScan(call) && call.key === key));
  const writer = life && life.call ? [callButton(life.call, `call ${life.call.number}`), soft(` p${life.call.process}`)] : soft(life ? 'start' : '');
  const cells = [mono(key), isHeld ? mono(life.value) : soft('none'), writer].map(it => el('td', {}, it));
  return { isHeld, isTouched, element: el('tr', isTouched ? { class: 'touched' } : {}, cells) };
}
function mapAtEnd() {
  if (step !== order.length || !wrong) return [];
  const would = wouldAnswer(wrong, key => holdsAt(key, step));
  const isList = differingKeys(wrong.answer, would).length > 0;
  const parts = ['It answered ', bold(say(wrong.answer), 'bad'), '. At this end of this order, the map would answer ', bold(say(would), ''), '.'];
  return [
    el('h2', {}, 'The call that goes wrong'),
    el('p', {}, named(wrong)),
    isList ? differences(wrong.answer, would, ['it answered', 'the map here']) : el('p', {}, parts),
    orderIsOfFew ? '' : el('p', { class: 'soft' }, 'Other orders of the same events may end with another map. None of them answers so.'),
  ];
}

// ---- The selected call ----

function renderCard() {
  const card = $('card');
  card.hidden = !selected;
  if (!selected) return;
  const call = selected;
  const role = call === wrong ? el('span', { class: 'bad' }, 'goes wrong here') : fewOf.has(call) ? 'explains the verdict' : '';
  const rows = cardRows(call).filter(row => row[1] !== null);
  card.replaceChildren(
    el(
      'div',
      { class: 'bar' },
      el('h2', {}, `Call ${call.number}`),
      role,
      el('span', { class: 'gap' }),
      button('← key', () => near(-1), { 'aria-label': 'The call before on this key', title: 'The call before on this key' }),
      button('key →', () => near(1), { 'aria-label': 'The next call on this key', title: 'The next call on this key' }),
      button('×', () => select(null), { 'aria-label': 'Close' }),
    ),
    el('dl', {}, rows.map(([name, ...content]) => [el('dt', {}, name), el('dd', {}, content)])),
    pairsTable(call, 120),
  );
  card.scrollTop = 0;
}
function cardRows(call) {
  const it = fewOf.get(call);
  const value = written(call);
  const end = isPending(call) ? events.length : call.to;
  const others = calls.filter(c => c !== call && c.from <= end && (isPending(c) || c.to > call.from));
  const pairs = Array.isArray(call.answer) && call.answer.length > 3;
  const answer = isPending(call) ? 'pending: it has no response' : pairs ? many(call.answer.length, 'pair') : mono(say(call.answer));
  const jump = () => {
    setStep(call.place + 1);
    pick('map');
  };
  const read = reported(call);
  return [
    ['call', mono(callWords(call))],
    ['response', answer],
    ['process', String(call.process)],
    ['events', isPending(call) ? `${call.from} on` : `${call.from} to ${call.to}`],
    ['place', call.place < 0 ? null : [`${call.place + 1} of ${order.length} `, button('the map then', jump, { class: 'link' })]],
    ['read by', value === undefined ? null : namesOrNobody(readers(call.key, value), call)],
    ['written by', isScan(call) || !read.length ? null : sourceOf(read[0][0], read[0][1], call)],
    ...(it ? it.misses : []).map(missed => ['misses', named(missed)]),
    ...few.filter(other => other.misses.includes(call)).map(other => ['missed by', named(other.call)]),
    ['overlaps', many(others.length, 'call')],
    ['note, invoked', call.note === undefined ? null : mono(noteWords(call.note).slice(0, 4000))],
    ['note, answered', call.answerNote === undefined ? null : mono(noteWords(call.answerNote).slice(0, 4000))],
  ];
}
function namesOrNobody(list, call) {
  const others = list.filter(it => it !== call);
  return others.length ? namedList(others, 8) : 'nobody';
}
function sourceOf(key, value, call) {
  const list = writers(key, value).filter(it => it !== call);
  if (list.length) return namedList(list);
  return startValues.get(key) === value ? 'the start' : isBad('no call that was recorded');
}
function pairsTable(call, count) {
  if (!isScan(call) || !Array.isArray(call.answer) || !call.answer.length) return '';
  const rows = call.answer.slice(0, count).map(([key, value]) => {
    const writer = writers(key, value)[0];
    const source = writer ? callButton(writer, `call ${writer.number}`) : startValues.get(key) === value ? 'start' : isBad('nobody');
    return el('tr', {}, [mono(key), mono(value), source].map(it => el('td', {}, it)));
  });
  const whole = el('div', {}, table(['key', 'value', 'written by'], rows));
  if (call.answer.length > count) {
    whole.append(button(`all ${call.answer.length} pairs`, () => whole.replaceWith(pairsTable(call, 5000))));
  }
  return whole;
}

// ---- Calls: a list of which only the part in sight is made ----

const ROW = 24;
const matchRoles = new Map();
let listed = [];
let foundWords = '';
function renderList() {
  listed = matches.length ? matches : shown;
  $('list-height').style.height = listed.length * ROW + 'px';
  const clear = button('clear', () => search(''), { class: 'link' });
  const head = matches.length ? [foundWords + ' ', clear] : [soft(`${shown.length} of ${many(calls.length, 'call')} pass the filter`)];
  $('list-head').replaceChildren(...head);
  renderRows();
}
function renderRows() {
  if ($('tab-calls').hidden) return;
  const box = $('list');
  const from = Math.max(0, Math.floor(box.scrollTop / ROW) - 4);
  const to = Math.min(listed.length, from + Math.ceil(box.clientHeight / ROW) + 10);
  $('rows').style.top = from * ROW + 'px';
  $('rows').replaceChildren(...listed.slice(from, to).map((call, i) => listRow(call, from + i)));
  box.setAttribute('aria-activedescendant', selected ? 'row' + selected.number : '');
}
function listRow(call, place) {
  const role = matchRoles.has(call) ? matchRoles.get(call) + ' ' : '';
  const attributes = {
    class: 'row',
    role: 'option',
    id: 'row' + call.number,
    'aria-selected': call === selected,
    'aria-setsize': listed.length,
    'aria-posinset': place + 1,
    onclick: () => select(call),
  };
  const span = isPending(call) ? `${call.from}–` : `${call.from}–${call.to}`;
  const text = mono(role + words(call, 120), call === wrong ? 'bad' : '');
  return el('div', attributes, mono(String(call.number)), mono('p' + call.process), text, mono(span));
}
function scrollTo(call) {
  const at = listed.indexOf(call) * ROW;
  const box = $('list');
  if (at >= 0 && (at < box.scrollTop || at > box.scrollTop + box.clientHeight - ROW)) box.scrollTop = at - box.clientHeight / 2;
  renderRows();
}

// ---- Data: the lines of the program, as they are ----

function renderData() {
  if ($('tab-data').childElementCount) return;
  const blocks = ['judge', 'locate', 'explain', 'order'].map(id => {
    const text = blockText(id).trim();
    const title = id === 'order' ? 'locate --order' : id;
    return text ? [el('h2', {}, title), el('pre', { tabindex: 0 }, visible(text).slice(0, 60000))] : [];
  });
  const save = () => {
    const address = URL.createObjectURL(new Blob([blockText('history')], { type: 'application/json' }));
    el('a', { href: address, download: 'history.json' }).click();
    setTimeout(() => URL.revokeObjectURL(address), 5000);
  };
  $('tab-data').append(
    el('p', { class: 'soft' }, 'The lines of the program, as they are. All that this page draws comes from them and from the history.'),
    ...blocks.flat(),
    el('h2', {}, 'History'),
    el('p', {}, `Version ${recorded.version}, ${many(events.length, 'event')}.`),
    el('p', {}, button('Save history.json', save)),
  );
}

// ---- Searching ----

function search(text) {
  const asked = text.trim();
  $('search').value = text;
  matchRoles.clear();
  matches = find(asked);
  matchSet = new Set(matches);
  foundWords = /^\d+$/.test(asked) ? valueWords(plainNumber(asked)) : many(matches.length, 'call');
  overviewIsStale = true;
  if (asked) pick('calls');
  renderList();
  if (asked && !matches.length) $('list-head').replaceChildren(el('span', { class: 'bad' }, 'Nothing is found.'));
  $('live').textContent = asked ? foundWords : '';
  draw();
}
function find(asked) {
  if (!asked) return [];
  const [, sign, digits] = /^([#@kp]?)(\d+)$/.exec(asked) || [];
  const number = digits && plainNumber(digits);
  if (sign === '#') return calls.filter(call => String(call.number) === number);
  if (sign === '@') return calls.filter(call => [call.from, call.to].map(String).includes(number));
  if (sign === 'k') return calls.filter(call => touches(call, number));
  if (sign === 'p') return calls.filter(call => String(call.process) === number);
  if (number) return calls.filter(call => noteRole(call, number));
  const low = asked.toLowerCase();
  const texts = call => [words(call, 1e9), call.note || '', call.answerNote || ''];
  return calls.filter(call => texts(call).some(it => it.toLowerCase().includes(low)));
}
// What a call does with a value.
function noteRole(call, value) {
  const reads = () => reported(call).some(([, found]) => found === value);
  const writes = call.kind === 'insert' ? call.a === value : call.kind === 'replace' && call.b === value;
  const role = writes ? 'writes' : reads() ? 'reads' : call.kind === 'replace' && call.a === value ? 'expects' : '';
  if (role) matchRoles.set(call, role);
  return role;
}
function valueWords(value) {
  const roles = [...matchRoles.values()];
  const count = role => roles.filter(it => it === role).length;
  const expected = count('expects') ? `, expected by ${count('expects')}` : '';
  const first = start.some(([, found]) => found === value) ? ', there at the start' : '';
  return `Value ${value}: written by ${count('writes')}, read by ${count('reads')}${expected}${first}`;
}
