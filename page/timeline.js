
// ---- What is shown: filters close the gaps between events ----

const filter = { few: explaining.size > 0, kinds: new Set(KINDS), keys: null, processes: null };
let shown = [];
let lanes = [];
let shownBy = new Map();
const isShown = new Uint8Array(calls.length);
// The column of each moment; a hidden one has that of the next that is shown.
const columnAt = new Int32Array(moments.length + 1);
let columns = 0;
let selected = null;
let hovered = null;
let step = order.length;
let matches = [];
let matchSet = new Set();

// Reads "5, 7..9": null for all, undefined for a fault.
function readRanges(text) {
  if (!text.trim() || text.trim() === 'all') return null;
  const ranges = [];
  for (const part of text.split(/[\s,]+/).filter(Boolean)) {
    const found = /^(\d+)(?:(?:\.\.|-)(\d+))?$/.exec(part);
    if (!found) return undefined;
    ranges.push([plainNumber(found[1]), plainNumber(found[2] || found[1])]);
  }
  return ranges;
}
const meets = (ranges, low, high) =>
  !ranges || ranges.some(([a, b]) => compare(low, b) <= 0 && compare(a, high) <= 0);
function passes(call) {
  if (filter.few) return explaining.has(call) || call === selected;
  const process = String(call.process);
  return (
    filter.kinds.has(call.kind) &&
    meets(filter.processes, process, process) &&
    meets(filter.keys, call.key, isScan(call) ? call.a : call.key)
  );
}

// Applies the filter, and keeps this call in sight.
function refilter(kept) {
  shown = calls.filter(passes);
  isShown.fill(0);
  shownBy = new Map();
  for (const call of shown) {
    isShown[call.number] = 1;
    if (!shownBy.has(call.process)) shownBy.set(call.process, []);
    shownBy.get(call.process).push(call);
  }
  lanes = processes.filter(process => shownBy.has(process));
  columns = 0;
  moments.forEach((number, moment) => {
    columnAt[moment] = columns;
    columns += isShown[number];
  });
  columnAt[moments.length] = columns;
  overviewIsStale = true;
  sizeStage();
  if (kept) {
    clampView();
    center(kept);
  } else {
    fitView();
  }
  showFilter();
  draw();
}

// ---- Geometry ----

const canvas = $('time');
const g = canvas.getContext('2d');
const GUTTER = 46;
const AXIS = 24;
const STRIP = 20;
// From this height on, words have room above and below a bar.
const TALL = 62;
const FONT = "11px ui-monospace, 'DejaVu Sans Mono', Menlo, Consolas, monospace";
const view = { left: 0, scale: 1, top: 0 };
let width = 0;
let height = 0;
let density = 1;
let letter = 7;
let printing = false;
let colour = {};

function readColours() {
  const style = getComputedStyle(document.documentElement);
  const kinds = KINDS.flatMap(kind => [kind, kind + '-line']);
  const others = 'bg panel ink soft faint line lane lane-odd bad bad-fill good mark mark-ink selected match after';
  for (const name of [...kinds, ...others.split(' ')]) colour[name] = style.getPropertyValue('--' + name).trim();
  overviewIsStale = true;
}

const most = () => (filter.few ? 132 : 104);
const plotWidth = () => width - GUTTER;
const leastScale = () => Math.min(64, plotWidth() / Math.max(1, columns + 1));
const stripHeight = () => (strips.length ? 8 + strips.length * STRIP : 0);
const laneRoom = () => height - AXIS - stripHeight();
const laneHeight = () => Math.max(15, Math.min(most(), laneRoom() / Math.max(1, lanes.length)));
const lanesEnd = () => Math.min(height - stripHeight(), AXIS + lanes.length * laneHeight());
const laneY = lane => AXIS + lane * laneHeight() - view.top;
const laneOf = call => lanes.indexOf(call.process);
const columnX = column => GUTTER + (column + 0.5 - view.left) * view.scale;
const momentX = moment => columnX(columnAt[moment]);
const eventX = event => momentX(momentOf[event]);
const stepColumn = place => columnAt[pointOf[order[place].number]];
const lastColumn = call => (isPending(call) ? Infinity : columnAt[momentOf[call.to]]);
const firstColumn = call => columnAt[momentOf[call.from]];

// The box of a call's bar.
function barOf(call) {
  const lane = laneHeight();
  const x = eventX(call.from);
  const end = isPending(call) ? Math.max(width, x + 30) : eventX(call.to);
  const top = lane >= TALL ? Math.max(20, lane / 2 - 13) : lane > 30 ? Math.min(12, lane * 0.2) : 2;
  const tall = lane >= TALL ? 24 : lane > 30 ? Math.min(26, lane / 2) : lane - 5;
  return { x, y: laneY(laneOf(call)) + top, width: Math.max(1.5, end - x), height: tall };
}

// The keys whose values are drawn along the order: those filtered, or those in question.
let strips = [];
function keysOfStrips() {
  if (!order.length || (orderIsOfFew && replayFault)) return [];
  let found = new Set();
  if (filter.keys) {
    found = new Set(keys.filter(key => meets(filter.keys, key, key)).slice(0, 6));
  } else {
    few.filter(it => !isScan(it.call)).forEach(it => found.add(it.call.key));
    origins.forEach(it => found.add(it.key));
    const differing = front ? front.next.flatMap(it => differingKeys(it.answer, it.would)) : [];
    if (differing.length && differing.length < 7) found = new Set(differing);
  }
  const list = [...found].sort(compare).slice(0, 6);
  if (!selected || isScan(selected) || list.includes(selected.key)) return list;
  return [...list.slice(0, 5), selected.key].sort(compare);
}
// The keys at which two lists of pairs differ.
function differingKeys(one, other) {
  if (!Array.isArray(one) || !Array.isArray(other)) return [];
  const [a, b] = [new Map(one), new Map(other)];
  return [...new Set([...a.keys(), ...b.keys()])].filter(key => a.get(key) !== b.get(key)).sort(compare);
}

function clampView() {
  view.scale = Math.min(160, Math.max(leastScale(), view.scale));
  view.left = Math.max(-0.5, Math.min(view.left, columns + 0.5 - plotWidth() / view.scale));
  view.top = Math.max(0, Math.min(view.top, lanes.length * laneHeight() - laneRoom()));
}
// The stage is no taller than what it shows.
function sizeStage() {
  strips = keysOfStrips();
  const wanted = AXIS + lanes.length * most() + stripHeight() + 2;
  $('stage').style.flex = `0 1 ${Math.max(180, Math.ceil(wanted))}px`;
}
function resize() {
  density = window.devicePixelRatio || 1;
  const box = $('stage').getBoundingClientRect();
  const least = Math.max(15, Math.min(most(), 560 / Math.max(1, lanes.length)));
  width = printing ? 1040 : Math.max(80, box.width - 2);
  height = printing ? Math.min(640, AXIS + stripHeight() + lanes.length * least) : Math.max(60, box.height - 2);
  canvas.width = Math.round(width * density);
  canvas.height = Math.round(height * density);
  const small = overview.getBoundingClientRect();
  overview.width = Math.max(1, Math.round(small.width * density));
  overview.height = Math.max(1, Math.round(small.height * density));
  overviewIsStale = true;
  g.font = FONT;
  letter = g.measureText('0000000000').width / 10;
  clampView();
  draw();
}
// All columns, or of the few calls as many as leave room for their words, up to the wrong response.
function fitView() {
  let wanted = 0;
  for (const list of filter.few ? shownBy.values() : []) {
    list.forEach((call, i) => {
      const next = i + 1 < list.length ? firstColumn(list[i + 1]) : columns;
      const text = Math.max(callWords(call).length, Math.min(14, answerWords(call).length)) + 1;
      wanted = Math.max(wanted, (text * letter + 6) / Math.max(1, next - firstColumn(call)));
    });
  }
  view.scale = Math.min(110, Math.max(Math.min(64, wanted), plotWidth() / Math.max(1, columns + 1)));
  view.left = wrong && filter.few ? lastColumn(wrong) + 1.5 - plotWidth() / view.scale : -0.5;
  view.top = 0;
  clampView();
}

// ---- Painting ----

let isQueued = false;
function draw() {
  if (isQueued) return;
  isQueued = true;
  requestAnimationFrame(() => {
    isQueued = false;
    paint();
  });
}
function line(x1, y1, x2, y2, style, thick = 1, dash = []) {
  g.strokeStyle = style;
  g.lineWidth = thick;
  g.setLineDash(dash);
  g.beginPath();
  g.moveTo(x1, y1);
  g.lineTo(x2, y2);
  g.stroke();
  g.setLineDash([]);
}
function fill(x, y, w, h, style) {
  g.fillStyle = style;
  g.fillRect(x, y, w, h);
}
function write(text, x, y, style, align = 'left') {
  g.fillStyle = style;
  g.textAlign = align;
  g.fillText(text, x, y);
}
function clip(text, room) {
  const letters = Math.floor(room / letter);
  if (text.length <= letters) return text;
  return letters < 3 ? '' : text.slice(0, letters - 1) + '…';
}
// Labels of arrows, each moved down until it covers none of the others, in boxes with round ends.
let labels = [];
function paintLabels() {
  const placed = [];
  for (const { text, x, style, ...it } of labels) {
    const half = (text.length * letter + 10) / 2;
    const covers = other => Math.abs(other.x - x) < other.half + half + 2 && Math.abs(other.y - it.y) < 18;
    while (placed.some(covers)) it.y += 18;
    placed.push({ x, y: it.y, half });
    g.fillStyle = colour.panel;
    g.strokeStyle = style;
    g.lineWidth = 1;
    g.beginPath();
    g.roundRect(x - half, it.y - 8, half * 2, 16, 8);
    g.fill();
    g.stroke();
    write(text, x, it.y + 0.5, style, 'center');
  }
  labels = [];
}
function within(x, y, w, h, paintPart) {
  g.save();
  g.beginPath();
  g.rect(x, y, w, h);
  g.clip();
  paintPart();
  g.restore();
}

function paint() {
  paintOverview();
  g.setTransform(density, 0, 0, density, 0, 0);
  g.font = FONT;
  g.textBaseline = 'middle';
  fill(0, 0, width, height, colour.panel);
  const end = lanesEnd();
  const wrongX = wrong ? eventX(wrong.to) : 0;
  within(0, AXIS, width, end - AXIS, () => {
    lanes.forEach((process, lane) => {
      fill(0, laneY(lane), width, laneHeight(), lane % 2 ? colour['lane-odd'] : colour.lane);
    });
    if (wrong) fill(wrongX, AXIS, Math.max(0, width - wrongX), end - AXIS, colour.after);
  });
  within(GUTTER, AXIS, plotWidth(), end - AXIS, () => {
    paintBars(end);
    paintPoints();
    paintArrows();
    paintLabels();
    if (wrong) line(wrongX, AXIS, wrongX, end, colour.bad, 1.5, [5, 3]);
  });
  paintStrips(end);
  paintAxis();
  within(0, AXIS, GUTTER, end - AXIS, () => {
    lanes.forEach((process, lane) => {
      const bar = barOf(shownBy.get(process)[0]);
      fill(0, laneY(lane), GUTTER, laneHeight(), lane % 2 ? colour['lane-odd'] : colour.lane);
      write('p' + process, 8, bar.y + bar.height / 2, colour.soft);
    });
  });
}

// The first call of a lane's list that ends at a column or later.
const firstFrom = (list, column) => lastUpTo(list, column, call => lastColumn(call) + 1e-9) + 1;
function paintBars(end) {
  const right = view.left + plotWidth() / view.scale + 1;
  const marked = [];
  lanes.forEach((process, lane) => {
    if (laneY(lane) > end || laneY(lane) + laneHeight() < AXIS) return;
    const list = shownBy.get(process);
    for (let i = firstFrom(list, view.left - 1); i < list.length; i++) {
      const call = list[i];
      if (firstColumn(call) > right) break;
      const next = i + 1 < list.length ? eventX(list[i + 1].from) : width;
      const isMarked = explaining.has(call) || call === selected || call === hovered || matchSet.has(call);
      if (isMarked) marked.push([call, next]);
      else paintBar(call, next, false);
    }
  });
  for (const [call, next] of marked) paintBar(call, next, true);
}
function barLine(call) {
  if (call === selected) return colour.selected;
  if (call === wrong) return colour.bad;
  if (matchSet.has(call)) return colour.match;
  return fewOf.has(call) ? colour.ink : colour[call.kind + '-line'];
}
function paintBar(call, next, isMarked) {
  const bar = barOf(call);
  if (!isMarked && (view.scale < 1.2 || bar.width < 5)) {
    g.globalAlpha = 0.75;
    fill(bar.x, bar.y, bar.width, bar.height, colour[call.kind + '-line']);
    g.globalAlpha = 1;
    return;
  }
  // No path goes far outside of the canvas.
  const x = Math.max(bar.x, GUTTER - 6);
  const wide = Math.min(bar.x + Math.max(3, bar.width), width + 6) - x;
  const isDashed = isMarked && !fewOf.has(call) && explaining.has(call) && call !== wrong && call !== selected;
  const outline = () => {
    g.beginPath();
    if (wide > 8) g.roundRect(x, bar.y, wide, bar.height, 3);
    else g.rect(x, bar.y, wide, bar.height);
  };
  g.fillStyle = call === wrong ? colour['bad-fill'] : colour[call.kind];
  outline();
  g.fill();
  if (call === wrong && wide > 6) paintStripes(x, bar.y, wide, bar.height);
  outline();
  g.strokeStyle = barLine(call);
  g.lineWidth = isDashed ? 1.5 : isMarked ? 2.4 : 1;
  g.setLineDash(isDashed ? [4, 2.5] : []);
  g.stroke();
  g.setLineDash([]);
  paintWords(call, bar, next);
}
function paintStripes(x, y, wide, tall) {
  within(x, y, wide, tall, () => {
    g.globalAlpha = 0.3;
    for (let at = x - tall; at < x + wide; at += 9) line(at, y + tall, at + tall, y, colour.bad, 3);
    g.globalAlpha = 1;
  });
}
function paintWords(call, bar, next) {
  const from = Math.max(bar.x, GUTTER);
  const end = Math.min(bar.x + bar.width, width);
  const room = end - from - 8;
  const after = Math.min(next, width) - from - 6;
  const middle = bar.y + bar.height / 2 + 0.5;
  const style = call === wrong ? colour.bad : colour.ink;
  const pale = call === wrong ? colour.bad : colour.soft;
  const number = String(call.number);
  const numberRoom = letter * number.length;
  if (laneHeight() >= TALL) {
    if (after > letter * 4) {
      const it = fewOf.get(call);
      const answerStyle = it && isLeftOut(it) ? colour.faint : pale;
      write(clip(callWords(call), after), from + 1, bar.y - 8, style);
      if (!isPending(call)) write(clip(say(call.answer).slice(0, 200), after), from + 1, bar.y + bar.height + 9, answerStyle);
    }
    const pointX = call.place < 0 ? -1e9 : momentX(pointOf[call.number]);
    const isFree = Math.abs(pointX - from - 4 - numberRoom / 2) > numberRoom / 2 + 10;
    if (room > numberRoom - 2 && isFree) write(number, from + 4, middle, pale);
    return;
  }
  if (bar.height < 9) return;
  const outside = Math.min(next, width) - end;
  if (room < letter * 14 && outside > Math.max(room, letter * 6)) {
    write(clip(words(call, 90), outside - 8), end + 4, middle, pale);
  } else if (room > letter * 3) {
    const all = words(call, 90);
    const hasNumber = room > numberRoom + letter * (1 + Math.min(all.length, 8));
    const shift = hasNumber ? numberRoom + letter : 0;
    if (hasNumber) write(number, from + 4, middle, pale);
    write(clip(all, room - shift), from + 4 + shift, middle, style);
  }
}

// The places of the order, joined.
function paintPoints() {
  if (!order.length || view.scale < 0.35) return;
  const lane = laneHeight();
  const hasNumbers = order.length < 1000;
  const radius = Math.min(hasNumbers ? 8.5 : 5.5, Math.max(1.2, Math.min(view.scale * 0.4, lane * 0.2)));
  const right = view.left + plotWidth() / view.scale + 3;
  const dots = [];
  for (let place = firstPlace(view.left - 3); place < order.length; place++) {
    const call = order[place];
    if (!isShown[call.number]) continue;
    const bar = barOf(call);
    const y = bar.y + (lane >= TALL || lane <= 30 ? bar.height / 2 : bar.height);
    dots.push({ place, x: columnX(stepColumn(place)), y });
    if (stepColumn(place) > right) break;
  }
  g.globalAlpha = 0.3;
  dots.slice(1).forEach((dot, i) => {
    const dash = dot.place === dots[i].place + 1 ? [] : [2, 3];
    if (view.scale > 7) line(dots[i].x, dots[i].y, dot.x, dot.y, colour.mark, 1, dash);
  });
  for (const { place, x, y } of dots) paintPoint(place, x, y, radius, hasNumbers);
  const x = stepX();
  if (x > GUTTER) line(x, AXIS, x, lanesEnd(), colour.mark);
}
function paintPoint(place, x, y, radius, hasNumbers) {
  g.globalAlpha = place < step ? 1 : 0.28;
  g.fillStyle = colour.mark;
  g.strokeStyle = colour.panel;
  g.lineWidth = 1;
  g.beginPath();
  g.arc(x, y, radius, 0, 7);
  g.fill();
  if (radius > 3) g.stroke();
  if (hasNumbers && radius > 7) {
    g.font = FONT.replace('11', place > 99 ? '7.5' : '8.5');
    write(String(place + 1), x, y + 0.5, colour['mark-ink'], 'center');
    g.font = FONT;
  }
  g.globalAlpha = 1;
  if (place !== step - 1 || radius <= 2) return;
  g.strokeStyle = colour.selected;
  g.lineWidth = 2;
  g.beginPath();
  g.arc(x, y, radius + 2, 0, 7);
  g.stroke();
}
const stepX = () => (step ? columnX(stepColumn(step - 1)) + Math.min(11, view.scale * 0.45) : columnX(0) - 4);
const places = order.map((call, place) => place);
const firstPlace = column => Math.max(0, lastUpTo(places, column, stepColumn));

function paintArrows() {
  const done = new Set();
  const go = (from, to, style, isDashed, text) => {
    const name = `${from.number} ${to.number}`;
    if (done.has(name) || from === to || !isShown[from.number] || !isShown[to.number]) return;
    done.add(name);
    paintArrow(from, to, style, isDashed, text);
  };
  const sources = (call, count, known) => {
    const pairs = reported(call);
    for (const [key, value] of pairs) {
      const text = pairs.length < count ? 'reads ' + value : '';
      for (const writer of writers(key, value)) if (known(writer)) go(writer, call, colour.good, false, text);
    }
  };
  for (const it of few) {
    for (const missed of it.misses) go(missed, it.call, colour.bad, true, 'missed');
    if (filter.few && !isLeftOut(it) && !isOpen(it)) sources(it.call, 3, writer => explaining.has(writer));
  }
  if (!selected) return;
  const end = isPending(selected) ? events.length : selected.to;
  sources(selected, 4, writer => writer.from <= end);
  if (written(selected) === undefined) return;
  for (const reader of readers(selected.key, written(selected)).slice(0, 60)) go(selected, reader, colour.good, false, '');
}
function paintArrow(from, to, style, isDashed, text) {
  const a = barOf(from);
  const b = barOf(to);
  const gap = laneHeight() >= TALL ? 14 : 0;
  const isSame = Math.abs(a.y - b.y) < 2;
  // In one lane an arrow to who reads goes above the bars, and one to who misses below them.
  const comesFromAbove = isSame ? !isDashed : b.y > a.y;
  const sign = comesFromAbove ? -1 : 1;
  const aEnd = Math.min(a.x + a.width, Math.max(a.x + 20, width));
  const bEnd = Math.min(b.x + b.width, Math.max(b.x + 20, width));
  const x1 = Math.min(aEnd, Math.max(a.x, b.x - 14));
  const y1 = comesFromAbove !== isSame ? a.y + a.height + gap : a.y - gap;
  const x2 = Math.max(b.x + Math.min(14, (bEnd - b.x) / 2), Math.min(x1, bEnd));
  const y2 = comesFromAbove ? b.y - gap : b.y + b.height + gap;
  const middle = isSame ? y1 + sign * 24 : (y1 + y2) / 2;
  const bend = isSame ? 6 : Math.max(10, Math.min(60, Math.abs(x2 - x1) / 3)) / 2;
  g.strokeStyle = g.fillStyle = style;
  g.lineWidth = 1.8;
  g.setLineDash(isDashed ? [6, 4] : []);
  g.beginPath();
  g.moveTo(x1, y1);
  g.bezierCurveTo(x1 + bend, middle, x2 - bend, middle, x2, y2 + sign * 6);
  g.stroke();
  g.setLineDash([]);
  g.beginPath();
  g.moveTo(x2, y2);
  g.lineTo(x2 - 4.5, y2 + sign * 8);
  g.lineTo(x2 + 4.5, y2 + sign * 8);
  g.fill();
  if (x1 < GUTTER - 4 && x2 > GUTTER + 90 && x2 < width) {
    // The other end is out of sight, so the arrow names it.
    const name = clip(`◂ ${isDashed ? 'missed' : 'reads'} ${callWords(from)}`, Math.min(300, x2 - GUTTER - 16));
    labels.push({ text: name, x: x2 - 17 - (name.length * letter) / 2, y: y2 + sign * 12, style });
  } else if (text && text.length * letter < 250 && Math.abs(x2 - x1) + Math.abs(y2 - y1) > 30) {
    labels.push({ text, x: (x1 + x2) / 2, y: Math.max(AXIS + 10, isSame ? y1 + sign * 18 : middle), style });
  }
}

// What each key in question holds along the order.
let stripHits = [];
function paintStrips(top) {
  stripHits = [];
  if (!strips.length) return;
  fill(0, top, width, stripHeight(), colour.bg);
  line(0, top + 0.5, width, top + 0.5, colour.line);
  const end = columnX(stepColumn(order.length - 1)) + view.scale / 2;
  strips.forEach((key, i) => {
    const y = top + 6 + i * STRIP;
    write(clip('k' + key, GUTTER - 8), 8, y + 9, colour.soft);
    within(GUTTER, y, plotWidth(), 18, () => paintStrip(key, y, end));
  });
  if (stepX() > GUTTER) line(stepX(), top, stepX(), top + stripHeight(), colour.mark);
}
function paintStrip(key, y, end) {
  const life = lives.get(key) || [];
  const now = lifeAt(key, step);
  life.forEach((it, i) => {
    const x1 = it.step ? columnX(stepColumn(it.step - 1)) : GUTTER - 2;
    const x2 = i + 1 < life.length ? columnX(stepColumn(life[i + 1].step - 1)) : end;
    if (it.value === null || x2 < GUTTER || x1 > width) return;
    const x = Math.max(GUTTER - 2, x1);
    const wide = Math.min(width + 2, x2) - x;
    fill(x, y + 1, wide, 15, colour.insert);
    g.strokeStyle = colour['insert-line'];
    g.lineWidth = it === now ? 2 : 0.7;
    if (wide > 3) g.strokeRect(x, y + 1, wide, 15);
    if (wide > letter * 2 + 6) write(clip(it.value, wide - 6), Math.max(x, GUTTER) + 4, y + 9, colour.ink);
    stripHits.push({ x1, x2, y, key, life: it });
  });
}

function paintAxis() {
  fill(0, 0, width, AXIS, colour.bg);
  line(0, AXIS - 0.5, width, AXIS - 0.5, colour.line);
  write('event', 6, AXIS / 2, colour.soft);
  const wrongX = wrong ? eventX(wrong.to) : -1e9;
  const hasFlag = wrongX > GUTTER - 40 && wrongX < width + 40;
  const text = wrong ? `event ${wrong.to}: goes wrong` : '';
  const wide = text.length * letter + 12;
  const flagX = Math.max(GUTTER, Math.min(width - wide, wrongX - wide / 2));
  const room = letter * (String(events.length).length + 2);
  let free = GUTTER + 14;
  for (let event = firstEvent(view.left - 1); event < events.length; event++) {
    if (!isShown[callAt[event]]) continue;
    const x = eventX(event);
    if (x > width - 10) break;
    if (x < free || (hasFlag && x > flagX - room / 2 - 4 && x < flagX + wide + room / 2)) continue;
    write(String(event), x, AXIS / 2, colour.soft, 'center');
    line(x, AXIS - 5, x, AXIS, colour.line);
    free = x + room;
  }
  if (!hasFlag) return;
  g.fillStyle = colour.bad;
  g.beginPath();
  g.roundRect(flagX, 3, wide, 17, 4);
  g.fill();
  write(text, flagX + 6, 12, colour.panel);
}
const allEvents = events.map((event, place) => place);
const firstEvent = column => Math.max(0, lastUpTo(allEvents, column, event => columnAt[momentOf[event]]));

// ---- The overview of all that is shown, kept as an image ----

const overview = $('overview');
const small = overview.getContext('2d');
const overviewImage = document.createElement('canvas');
let overviewIsStale = true;
const overviewX = moment => (columnAt[moment] / Math.max(1, columns)) * overview.width;

function makeOverview() {
  overviewImage.width = overview.width;
  overviewImage.height = overview.height;
  const image = overviewImage.getContext('2d');
  const margin = 6 * density;
  const lane = (overview.height - 2 * margin) / Math.max(1, lanes.length);
  const box = (x, y, w, h, style) => {
    image.fillStyle = style;
    image.fillRect(x, y, w, h);
  };
  box(0, 0, overview.width, overview.height, colour.panel);
  image.globalAlpha = 0.75;
  for (const call of shown) {
    const x = overviewX(momentOf[call.from]);
    const end = isPending(call) ? overview.width : overviewX(momentOf[call.to]);
    const y = margin + laneOf(call) * lane;
    box(x, y, Math.max(0.8, end - x), Math.max(1, lane - 1), colour[call.kind + '-line']);
  }
  image.globalAlpha = 1;
  for (const call of shown) {
    const x = overviewX(momentOf[call.from]) - density * 0.75;
    const tick = margin - density;
    if (matchSet.has(call)) box(x, 0, 1.5 * density, tick, colour.match);
    else if (fewOf.has(call)) box(x, overview.height - margin, 1.5 * density, tick, colour.ink);
  }
  if (wrong) box(overviewX(momentOf[wrong.to]) - density, 0, 2 * density, overview.height, colour.bad);
}
function paintOverview() {
  if (overviewIsStale) makeOverview();
  overviewIsStale = false;
  small.drawImage(overviewImage, 0, 0);
  const a = Math.max(0, ((view.left + 0.5) / Math.max(1, columns)) * overview.width);
  const shownPart = plotWidth() / view.scale / Math.max(1, columns);
  const b = Math.min(overview.width, a + Math.max(3 * density, shownPart * overview.width));
  small.fillStyle = colour.after;
  small.fillRect(0, 0, a, overview.height);
  small.fillRect(b, 0, overview.width, overview.height);
  small.strokeStyle = colour.selected;
  small.lineWidth = 1.5 * density;
  small.strokeRect(Math.max(density, a), density, b - Math.max(density, a) - density, overview.height - 2 * density);
  if (!order.length) return;
  const x = overviewX(step ? pointOf[order[step - 1].number] : 0);
  small.fillStyle = colour.mark;
  small.fillRect(x - density / 2, 0, density, overview.height);
}

// ---- Moving the view ----

function moveView(left, scale, top = view.top) {
  Object.assign(view, { left, scale, top });
  clampView();
  draw();
}
function zoom(factor, x = width / 2) {
  const column = view.left + (x - GUTTER) / view.scale;
  const scale = Math.min(160, Math.max(leastScale(), view.scale * factor));
  moveView(column - (x - GUTTER) / scale, scale);
}
// Moves no further than to bring a call into sight.
function center(call) {
  if (!isShown[call.number]) return;
  const room = plotWidth() / view.scale;
  const a = firstColumn(call);
  const b = isPending(call) ? a + 2 : lastColumn(call);
  const y = laneOf(call) * laneHeight();
  let { left, top } = view;
  if (a < left + 1 || Math.min(b, a + room) > left + room - 1) {
    const middle = b - a <= room ? (a + b) / 2 : call.place >= 0 ? stepColumn(call.place) : a + room / 2;
    left = middle - room / 2;
  }
  if (y < top || y + laneHeight() > top + laneRoom()) top = y - laneRoom() / 2;
  moveView(left, view.scale, top);
}
// Moves to a call, at a scale at which words have room.
function focusOn(call) {
  if (!isShown[call.number]) return;
  const scale = Math.max(leastScale(), 26);
  const a = firstColumn(call);
  const b = isPending(call) ? a + 2 : lastColumn(call);
  const room = plotWidth() / scale;
  moveView((Math.max(a, b - room * 0.8) + b - room) / 2, scale, laneOf(call) * laneHeight() - laneRoom() / 2);
}

// The call at a point of the canvas, and what a strip holds there.
function callAtPoint(x, y) {
  const lane = Math.floor((y - AXIS + view.top) / laneHeight());
  if (y < AXIS || y > lanesEnd() || x < GUTTER || lane < 0 || lane >= lanes.length) return null;
  const list = shownBy.get(lanes[lane]);
  const column = view.left + (x - GUTTER) / view.scale - 0.5;
  let least = 4 / view.scale;
  let found = null;
  for (let i = firstFrom(list, column - least - 1); i < list.length && firstColumn(list[i]) <= column + least; i++) {
    const far = Math.max(0, firstColumn(list[i]) - column, column - lastColumn(list[i]));
    if (far > least) continue;
    least = far;
    found = list[i];
  }
  return found;
}
const stripAtPoint = (x, y) => stripHits.find(it => x >= it.x1 && x < it.x2 && y >= it.y && y < it.y + 18);
