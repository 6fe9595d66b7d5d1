'use strict';

// ---- Reading: a number stays the decimal text that it is, since keys go up to 2^64 - 1 ----

// A string of a JSON text. A number is a plain string.
class Word {
  constructor(text) {
    this.text = text;
  }
}

// Reads one JSON value. Objects have no prototype, of equal members the last counts, and a note stays raw text.
class Reader {
  constructor(text) {
    this.text = text;
    this.at = 0;
  }

  // The code of the next character that is no white space.
  next() {
    for (;;) {
      const code = this.text.charCodeAt(this.at);
      if (code !== 32 && code !== 10 && code !== 13 && code !== 9) return code;
      this.at++;
    }
  }

  string() {
    const from = this.at++;
    let plain = true;
    for (;;) {
      const code = this.text.charCodeAt(this.at);
      if (Number.isNaN(code)) throw new Error('the text ends in a string');
      if (code === 34) break;
      if (code === 92) plain = false;
      this.at += code === 92 ? 2 : 1;
    }
    this.at++;
    return plain ? this.text.slice(from + 1, this.at - 1) : JSON.parse(this.text.slice(from, this.at));
  }

  // Skips a value of any depth, without recursion, and returns its text.
  raw() {
    this.next();
    const from = this.at;
    let depth = 0;
    do {
      const code = this.text.charCodeAt(this.at);
      if (Number.isNaN(code)) throw new Error('the text ends in a value');
      if (code === 34) {
        this.string();
        continue;
      }
      const ends = code === 125 || code === 93;
      if (!depth && (ends || code === 44)) break;
      if (code === 123 || code === 91) depth++;
      if (ends) depth--;
      this.at++;
      if (!depth && ends) break;
    } while (this.at < this.text.length);
    return this.text.slice(from, this.at).trimEnd();
  }

  object() {
    const members = Object.create(null);
    this.at++;
    if (this.next() === 125) {
      this.at++;
      return members;
    }
    for (;;) {
      this.next();
      const name = this.string();
      this.next();
      this.at++;
      members[name] = name === 'note' ? this.raw() : this.value();
      this.next();
      if (this.text[this.at++] === '}') return members;
    }
  }

  array() {
    const items = [];
    this.at++;
    if (this.next() === 93) {
      this.at++;
      return items;
    }
    for (;;) {
      items.push(this.value());
      this.next();
      if (this.text[this.at++] === ']') return items;
    }
  }

  value() {
    const code = this.next();
    if (code === 123) return this.object();
    if (code === 91) return this.array();
    if (code === 34) return new Word(this.string());
    const plain = /[\w+.-]+/y;
    plain.lastIndex = this.at;
    const found = plain.exec(this.text);
    if (!found) throw new Error('no JSON at character ' + this.at);
    this.at = plain.lastIndex;
    const words = { null: null, true: true, false: false };
    return found[0] in words ? words[found[0]] : found[0];
  }
}

const read = text => new Reader(text).value();
const $ = id => document.getElementById(id);
const blockText = id => $(id).textContent;
const blockLines = id =>
  blockText(id)
    .split('\n')
    .filter(line => line.trim())
    .map(read);

// ---- Words ----

// Compares two numbers by their decimal texts.
const compare = (a, b) => a.length - b.length || (a < b ? -1 : a > b ? 1 : 0);
const plainNumber = text => text.replace(/^0+(?=\d)/, '');
const many = (count, word) => `${count} ${word}${count === 1 ? '' : word.endsWith('s') ? 'es' : 's'}`;

function say(value) {
  if (value === null || value === undefined) return 'none';
  if (value instanceof Word) return value.text;
  return Array.isArray(value) ? '[' + value.map(pair => `[${pair}]`).join(',') + ']' : value;
}

// Characters that show nothing, or that move others, are spelled.
const UNSEEN = new RegExp(
  '[\\u0000-\\u0009\\u000b-\\u001f\\u007f-\\u009f\\u00ad\\u061c\\u115f\\u1160\\u17b4\\u17b5\\u180b-\\u180f' +
    '\\u200b-\\u200f\\u2028-\\u202f\\u2060-\\u206f\\u3164\\ufe00-\\ufe0f\\ufeff\\uffa0\\ufff0-\\uffff' +
    '\\u{e0000}-\\u{e0fff}\\ud800-\\udfff]',
  'gu',
);
const visible = text => text.replace(UNSEEN, c => `\\u{${c.codePointAt(0).toString(16)}}`);
// A note as it was before its "<" were escaped: an escape after an even number of backslashes.
const noteWords = raw => visible(raw.replace(/(\\\\)|\\u003c/g, (escape, pair) => pair || '<'));

// ---- The history ----

const KINDS = ['get', 'insert', 'replace', 'remove', 'scan'];
const recorded = read(blockText('history'));
const events = recorded.events;
const start = recorded.start || [];
const calls = [];
// The call of each event, by its number.
const callAt = new Int32Array(events.length);
const processes = [];
// How many calls were open as others began, in all.
let openAtOthers = 0;
{
  const open = new Map();
  const seen = new Set();
  events.forEach((event, place) => {
    const process = +event.process;
    seen.add(process);
    let call = open.get(process);
    if ('invoke' in event) {
      const [kind, key, a, b] = event.invoke;
      call = { number: calls.length, process, kind: kind.text, key, a, b, note: event.note };
      Object.assign(call, { from: place, to: -1, answer: undefined, place: -1 });
      openAtOthers += open.size;
      open.set(process, call);
      calls.push(call);
    } else {
      Object.assign(call, { to: place, answer: event.answer, answerNote: event.note });
      open.delete(process);
    }
    callAt[place] = call.number;
  });
  processes.push(...[...seen].sort((a, b) => a - b));
}
const callOf = event => calls[callAt[+event]];
const overlap = (openAtOthers / Math.max(1, calls.length)).toFixed(2);

const isPending = call => call.to < 0;
const isScan = call => call.kind === 'scan';
const isAnswer = (call, word) => call.answer instanceof Word && call.answer.text === word;
const callWords = call => [call.kind, call.key, call.a, call.b].filter(x => x !== undefined).join(' ');
const answerWords = call => (isPending(call) ? 'pending' : say(call.answer));
const spanWords = call => (isPending(call) ? `event ${call.from} on, pending` : `events ${call.from} to ${call.to}`);
function words(call, most = 300) {
  const all = `${callWords(call)}: ${answerWords(call)}`;
  return all.length > most ? all.slice(0, most) + '..' : all;
}

// The value that a call writes.
function written(call) {
  if (isAnswer(call, 'refused')) return undefined;
  return call.kind === 'insert' ? call.a : call.kind === 'replace' ? call.b : undefined;
}
// The pairs of a key and a value that a response reports.
function reported(call) {
  if (isPending(call) || call.answer === null || call.answer instanceof Word) return [];
  return Array.isArray(call.answer) ? call.answer : [[call.key, call.answer]];
}
const touches = (call, key) =>
  isScan(call) ? compare(call.key, key) <= 0 && compare(key, call.a) <= 0 : call.key === key;

const startValues = new Map(start);
const writerTable = new Map();
const readerTable = new Map();
const keySet = new Set(startValues.keys());
for (const call of calls) {
  const note = (table, key, value) => {
    const name = `${key} ${value}`;
    if (!table.has(name)) table.set(name, []);
    if (table.get(name).at(-1) !== call) table.get(name).push(call);
  };
  if (!isScan(call)) keySet.add(call.key);
  if (written(call) !== undefined) note(writerTable, call.key, written(call));
  for (const [key, value] of reported(call)) {
    keySet.add(key);
    note(readerTable, key, value);
  }
}
const keys = [...keySet].sort(compare);
const writers = (key, value) => writerTable.get(`${key} ${value}`) || [];
const readers = (key, value) => readerTable.get(`${key} ${value}`) || [];

// ---- The lines of the program ----

const judged = blockLines('judge')[0];
const located = blockLines('locate')[0];
const verdict = judged.verdict.text;
const locatedVerdict = located.verdict.text;
// The call whose response no order explains.
const wrong = locatedVerdict === 'no' ? callOf(located.event) : null;
const segmentWords = judged.lo === judged.hi ? `key ${judged.lo}` : `keys ${judged.lo} to ${judged.hi}`;

const few = [];
const origins = [];
// The values from which the few calls begin, and who wrote them, by rising key.
const fewBegin = [];
let fewHistory = null;
let front = null;
for (const line of blockLines('explain').filter(it => !it.verdict)) {
  if (line.from !== undefined && line.put !== undefined) {
    fewBegin.push({ key: line.key, value: line.from, writer: line.put && callOf(line.put.event) });
  } else if (line.reason) {
    const misses = (line.misses || []).map(missed => callOf(missed.event));
    few.push({ call: callOf(line.event), reason: line.reason.text, answer: line.answer, misses });
  } else if (line.puts) {
    origins.push({ ...line, puts: line.puts.map(put => callOf(put.event)) });
  } else if (line.events) {
    fewHistory = line;
  } else if (line.front) {
    const next = line.next.map(x => ({ call: callOf(x.event), answer: x.answer, would: x.would }));
    front = { calls: line.front.map(callOf), holds: line.holds, next };
  }
}
// A few calls without an order refute the history, also where `locate` is undecided.
const shownVerdict = verdict !== 'undecided' ? verdict : few.length ? 'no' : locatedVerdict;
const fewOf = new Map(few.map(it => [it.call, it]));
// The few calls, those that they miss, and those that wrote what they read.
const explaining = new Set(few.flatMap(it => [it.call, ...it.misses]));
origins.flatMap(it => it.puts).forEach(call => explaining.add(call));
fewBegin.filter(it => it.writer).forEach(it => explaining.add(it.writer));
if (wrong) explaining.add(wrong);
const isLeftOut = it => it.answer instanceof Word && it.answer.text === 'left out';
const isOpen = it => it.answer instanceof Word && it.answer.text === 'open';

// ---- The order, replayed ----

const orderLine = blockLines('order')[0];
// All events up to this one have the order below; those of the few calls, where nothing else is known.
let orderedTo = 0;
let order = [];
let orderIsOfFew = false;
if (orderLine && orderLine.order) {
  order = orderLine.order.map(number => calls[+number]);
  orderedTo = orderLine.event === undefined ? events.length : +orderLine.event;
} else if (judged.order) {
  order = judged.order.map(number => calls[+number]);
  orderedTo = events.length;
} else if (front) {
  order = front.calls;
  orderIsOfFew = true;
}
const isAnswered = call => !isPending(call) && call.to < orderedTo;

// What each key holds from which step on: {step, value, call}, by rising step.
const lives = new Map(keys.map(key => [key, []]));
// Where the replay disagrees with the program.
let replayFault = '';

function wouldAnswer(call, holds) {
  if (!isScan(call)) return holds(call.key) === undefined ? null : holds(call.key);
  return keys.filter(key => touches(call, key) && holds(key) !== undefined).map(key => [key, holds(key)]);
}
// Whether a response is one that the map gives that would answer so.
function fits(call, would) {
  const answer = call.answer;
  if (!(answer instanceof Word)) return say(answer) === say(would) && Array.isArray(answer) === Array.isArray(would);
  if (answer.text === 'found') return !isScan(call) && would !== null;
  return answer.text === 'done' || answer.text === 'refused' || (call.kind === 'replace' && would !== call.a);
}

{
  const now = new Map();
  const set = (key, step, value, call) => {
    if (!lives.has(key)) lives.set(key, []);
    lives.get(key).push({ step, value, call });
    if (value === null) now.delete(key);
    else now.set(key, value);
  };
  const begin = orderIsOfFew ? (fewHistory && fewHistory.start) || [] : start;
  for (const [key, value] of begin) set(key, 0, value, null);
  let latest = -1;
  order.forEach((call, place) => {
    const step = place + 1;
    call.place = place;
    latest = Math.max(latest, call.from);
    if (!replayFault && isAnswered(call)) {
      const would = wouldAnswer(call, key => now.get(key));
      if (!fits(call, would)) replayFault = `at place ${place} call ${call.number} is answered otherwise`;
      if (latest >= call.to) replayFault = `call ${call.number} has a place after its response`;
    }
    if (isAnswer(call, 'refused') && !isPending(call)) return;
    if (call.kind === 'insert') set(call.key, step, call.a, call);
    else if (call.kind === 'remove' && now.has(call.key)) set(call.key, step, null, call);
    else if (call.kind === 'replace' && now.get(call.key) === call.a) set(call.key, step, call.b, call);
  });
  const missing = orderIsOfFew ? undefined : calls.find(call => isAnswered(call) && call.place < 0);
  if (missing && order.length) replayFault = replayFault || `call ${missing.number} has no place`;
  const ends = say([...now].sort((a, b) => compare(a[0], b[0])));
  if (orderIsOfFew && ends !== say(front.holds)) replayFault = `the map of the few calls would hold ${ends}`;
}

// The last of a sorted list that is at most a bound, by what is measured of its items.
function lastUpTo(list, bound, measure) {
  let low = 0;
  let high = list.length;
  while (low < high) {
    const middle = (low + high) >> 1;
    if (measure(list[middle]) <= bound) low = middle + 1;
    else high = middle;
  }
  return low - 1;
}
const lifeAt = (key, step) => {
  const life = lives.get(key) || [];
  return life[lastUpTo(life, step, it => it.step)];
};
const holdsAt = (key, step) => {
  const life = lifeAt(key, step);
  return life && life.value !== null ? life.value : undefined;
};

// ---- Moments: the events, and each place of the order after the latest invocation up to it ----

const momentOf = new Int32Array(events.length + 1);
const pointOf = new Int32Array(calls.length).fill(-1);
// The number of the call of each moment.
const moments = [];
{
  const points = new Map();
  let latest = -1;
  for (const call of order) {
    latest = Math.max(latest, call.from);
    if (!points.has(latest)) points.set(latest, []);
    points.get(latest).push(call);
  }
  for (let event = 0; event < events.length; event++) {
    momentOf[event] = moments.length;
    moments.push(callAt[event]);
    for (const call of points.get(event) || []) {
      pointOf[call.number] = moments.length;
      moments.push(call.number);
    }
  }
  momentOf[events.length] = moments.length;
}
