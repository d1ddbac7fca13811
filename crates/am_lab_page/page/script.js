// The page of a report. It reads the journal, an object a line, the picture as it stands in the page, and what each entry changed:
// `docs/JSON.md`, `docs/PICTURES.md` and `docs/STATE.md` say what is in them.
'use strict';
(() => {
const TOP = 190, HEADS = 134, HEAD = TOP - HEADS, EDGE = 12, LABEL = 72, LANE = 33, INTERFACE = 22, FOLDED = 1, TEXT = 13;
const NAMES = { t: 'thread', i: 'the interface of node', d: 'the driver of node' };
const FATES = ['ran', 'returned', 'unknown', 'unknown-but-ran', 'pending'];
const ENDED = {
  ran: 'a poll at its destination ran it',
  unknown: 'its last try timed out with no answer, and no poll ran it',
  'unknown-but-ran': 'its last try timed out with no answer, and a poll ran it',
};
const PENDING = {
  sent: 'it was sent, and no answer has come', requeued: 'it was put back, to be sent again', accepted: 'it was put at its destination, and no poll ran it',
};
const RETURNED = {
  'no-endpoint': 'its destination was closed', 'bad-tag': 'its tag did not match that of its destination',
  'not-resident': 'its destination was in no frame, as often as it may bounce', 'bad-handler': 'its destination has no such handler',
  'queue-full': 'its destination had no room, as often as it may bounce', 'no-request': 'its destination awaits no reply to such a request',
};
const SERIAL = /^\d+\.\d+$/;
const byId = (id) => document.getElementById(id);
const number = (element, name) => Number(element.getAttribute(name));
const made = (name, settings = {}, ...inside) => {
  const element = Object.assign(document.createElement(name), settings);
  element.append(...inside);
  return element;
};
const drawn = (name, attributes = {}) => {
  const element = document.createElementNS('http://www.w3.org/2000/svg', name);
  for (const [key, value] of Object.entries(attributes)) element.setAttribute(key, value);
  return element;
};

// ---- the journal

const entries = byId('journal').textContent.split('\n').filter((line) => line).map((line) => JSON.parse(line));
const texts = entries.map((it) => `${it.actor} ${it.event}${it.outcome === null ? '' : ` -> ${it.outcome}`}`);
const wayName = (from, to, packet) => `${from}>${to}:${packet}`;
const rowsOf = new Map(), fateOf = new Map(), receipts = new Map(), requestOf = new Map(), replyOf = new Map();
const put = (map, key, value) => map.has(key) ? map.get(key).push(value) : map.set(key, [value]);

entries.forEach((it, row) => {
  if (it.serial !== null) put(rowsOf, it.serial, row);
  if (it.reply !== null && it.reply !== it.serial) put(rowsOf, it.reply, row);
  if (it.reply !== null) { requestOf.set(it.reply, it.serial); replyOf.set(it.serial, it.reply); }
  if (it.reply !== null && !fateOf.has(it.reply)) fateOf.set(it.reply, 'pending');
  if (it.fate !== null) fateOf.set(it.serial, it.fate);
  const words = it.event.split(' ');
  if (words[0] === 'receive') put(receipts, wayName(words[1], it.actor.slice(1), words[2]), row);
});
const isFailed = (it) => /^(returned|unknown) /.test(it.outcome ?? '') || (it.event.startsWith('giveup ') && it.outcome === 'ok');
const marks = entries.flatMap((it, row) => isFailed(it) ? [row] : []);

// what each entry changed, if the page carries it: behind `line N` the lines that are gone and those that are new
const carried = byId('changes');
const changes = new Map((carried?.content.textContent ?? '').split(/^line /m).slice(1).map((block) => {
  const end = block.indexOf('\n');
  return [Number(block.slice(0, end)), block.slice(end + 1)];
}));

// ---- the picture: what stands in it, and where it was drawn

const svg = document.querySelector('#picture > svg');
const unit = svg.classList.contains('large') ? 18 : 3;
const half = unit === 18 ? 9 : 1;
const original = { box: svg.getAttribute('viewBox'), class: svg.getAttribute('class'), width: svg.getAttribute('width'), height: svg.getAttribute('height') };
const all = (what) => [...svg.querySelectorAll(`:scope > ${what}`)];
const rows = all('g');
const bands = all('rect.band').map((element, node) => ({ element, node, left: number(element, 'x'), right: number(element, 'x') + number(element, 'width') }));
const arrows = [...all('line[marker-end]'), ...all('path[marker-end]')];
const crosses = all('use[stroke-dasharray]').filter((it) => /^#lost-/.test(it.getAttribute('href')) && number(it, 'y') > TOP);
const perPage = unit === 18 ? 50 : 300, pageHigh = unit * perPage + 18;  // behind each page stand the heads again, 18 pixels high
const drawnTop = (row) => TOP + unit * row + 18 * Math.floor(row / perPage);
const bottom = drawnTop(rows.length);
const rowAtY = (y) => {
  const page = Math.floor((y - TOP) / pageHigh);
  const row = page * perPage + Math.round((y - TOP - page * pageHigh - half) / unit);
  return Math.min(rows.length - 1, Math.max(0, row));
};
const lanes = [];

// what stands in a head, behind its title
const headText = (text) => text.lastChild.data;
const takeLane = (text) => {
  const x = number(text, 'x'), words = headText(text).split(' ');
  const wide = words[0] === 'endpoint' ? LANE : INTERFACE;
  if (words[0] !== 'endpoint' && !/^i\d+$/.test(words[0])) return;
  lanes.push({ endpoint: words[0] === 'endpoint' ? words[1] : null, x, left: x - wide, right: x + wide, idle: true, heads: [] });
};
all('text.head').forEach(takeLane);
lanes.sort((a, b) => a.x - b.x);
const laneAt = new Map(lanes.map((lane) => [lane.x, lane]));
for (const lane of lanes) lane.node = bands.find((band) => band.left <= lane.x && lane.x <= band.right)?.node;

// the lanes that a row's signs stand in
const namesX = { line: ['x1', 'x2'], use: ['x'] };
const placesOf = (element) => (namesX[element.tagName] ?? []).map((name) => number(element, name));
const touched = rows.map((row) => new Set([...row.children].flatMap(placesOf).flatMap((x) => laneAt.get(x) ?? [])));
for (const touches of touched) for (const lane of touches) lane.idle = false;

// arrows and crosses, with the row that sends and the row that receives, and the message of the packet
const rowsOfWay = (element) => {
  if (element.tagName === 'line') return [rowAtY(number(element, 'y1')), rowAtY(number(element, 'y2'))];
  if (element.tagName === 'use') return [rowAtY(number(element, 'y')), null];
  const places = element.getAttribute('d').match(/\d+/g).map(Number);
  return [rowAtY(places[1]), rowAtY(places[7])];
};
const ways = [...arrows, ...crosses].map((element) => {
  const [from, to] = rowsOfWay(element);
  return { element, from, to, serial: entries[from]?.serial ?? null };
});
const wayOf = new Map(ways.map((way) => [way.element, way]));

// ---- where everything stands now

const state = { message: null, row: null, lanes: false, lines: false, height: rows.length && unit === 3 ? 14 : 18, filtered: false };
const matched = new Uint8Array(rows.length).fill(1), bright = new Uint8Array(rows.length).fill(1);
const tops = new Float64Array(rows.length + 1), bends = [];
const left = (bands[0]?.left ?? EDGE) - EDGE, right = bands.at(-1)?.right ?? 860;

const bendLanes = () => {
  let saved = 0;
  bends.length = 0;
  for (const lane of lanes) {
    const folded = state.lanes && lane.idle;
    bends.push([lane.left, lane.left - saved]);
    if (folded) saved += lane.right - lane.left - FOLDED;
    bends.push([lane.right, lane.right - saved]);
  }
};
const atX = (x) => {
  const next = bends.findIndex(([from]) => from > x);
  if (next === 0 || !bends.length) return x;
  const [from, to] = bends.at(next < 0 ? -1 : next - 1);
  if (next < 0) return to + x - from;
  const [from2, to2] = bends[next];
  return from2 === from ? to : to + (x - from) * (to2 - to) / (from2 - from);
};
const known = new Map();
const placeX = (x) => { if (!known.has(x)) known.set(x, atX(x)); return known.get(x); };
const middle = (row) => TOP + (tops[row] + tops[row + 1]) / 2;
const placeY = (y) => y <= TOP ? y : y >= bottom ? TOP + tops[rows.length] + y - bottom : middle(rowAtY(y));

const stackRows = () => {
  for (let row = 0; row < rows.length; row += 1) tops[row + 1] = tops[row] + (state.lines && !bright[row] ? 0 : state.height);
};

// each mover puts one element where it is to stand; `x` and `y` are the identity for printing
const movers = [];
const setAll = (element, values) => { for (const [name, value] of Object.entries(values)) element.setAttribute(name, value); };
const moveRect = (element) => {
  const [x, y, wide, high] = ['x', 'y', 'width', 'height'].map((name) => number(element, name));
  movers.push((atX, atY) => setAll(element, { x: atX(x), y: atY(y), width: atX(x + wide) - atX(x), height: Math.max(0, atY(y + high) - atY(y)) }));
};
const moveLine = (element) => {
  const [x1, y1, x2, y2] = ['x1', 'y1', 'x2', 'y2'].map((name) => number(element, name));
  movers.push((atX, atY) => setAll(element, { x1: atX(x1), y1: atY(y1), x2: atX(x2), y2: atY(y2) }));
};
const movePlace = (element, below = 0) => {
  const x = number(element, 'x'), y = number(element, 'y') - below;
  movers.push((atX, atY) => setAll(element, { x: atX(x), y: atY(y) + below }));
};
const movePath = (element) => {
  const [x, y, , , , , end, low] = element.getAttribute('d').match(/\d+/g).map(Number);
  movers.push((atX, atY) => {
    const at = atX(x);
    element.setAttribute('d', `M${at} ${atY(y)}C${at + 26} ${atY(y)} ${at + 26} ${atY(low)} ${at + end - x} ${atY(low)}`);
  });
};
const moveInRow = (element) => {
  const names = element.tagName === 'line' ? ['x1', 'x2'] : ['x'];
  const places = names.map((name) => number(element, name));
  return (atX) => names.forEach((name, which) => element.setAttribute(name, atX(places[which])));
};
const moveRow = (group, row) => {
  let sideways = null;
  const was = drawnTop(row) + half;
  movers.push((atX, atY, folds) => {
    group.setAttribute('transform', `translate(0 ${atY(was) - was})`);
    if (!folds && sideways === null) return;
    sideways ??= [...group.children].filter((it) => it.tagName === 'line' || number(it, 'x') > left).map(moveInRow);
    for (const move of sideways) move(atX);
  });
};

all('rect').filter((it) => !it.matches('.page') && number(it, 'y') > HEADS).forEach(moveRect);
all('line.lane').forEach(moveLine);
all('text.in-frame').forEach((it) => movePlace(it, 11));
const middleOf = (element) => element.tagName === 'rect' ? number(element, 'x') + number(element, 'width') / 2 : number(element, 'x');
const idleParts = [...all('text.in-frame'), ...all('rect:not(.band)')].filter((it) => laneAt.get(middleOf(it))?.idle);
arrows.forEach((it) => it.tagName === 'line' ? moveLine(it) : movePath(it));
crosses.forEach((it) => movePlace(it));
rows.forEach(moveRow);

// ---- the heads, which stay while one scrolls, and the signs

const LETTERS = { 'font-family': 'sans-serif', 'font-size': 9 };
const headsPicture = drawn('svg', { class: 'picture large', role: 'img', 'aria-label': 'The nodes, and their endpoints and interfaces', ...LETTERS });
const headMovers = [];
for (const band of bands) {
  const copy = headsPicture.appendChild(band.element.cloneNode());
  headMovers.push(() => setAll(copy, { x: placeX(band.left), width: placeX(band.right) - placeX(band.left), height: 40 }));
}
for (const text of all('text.head')) {
  const copy = headsPicture.appendChild(text.cloneNode(true));
  const x = number(text, 'x'), name = headText(text), band = name.startsWith('node ') ? bands.find((it) => it.left <= x && x <= it.right) : null;
  const lane = band ? null : lanes.find((it) => it.left < x && x < it.right);
  const folded = lanes.filter((it) => it.idle && it.endpoint !== null && it.node === band?.node).length;
  headMovers.push(() => {
    if (folded) copy.lastChild.data = state.lanes ? `${name} (${folded} idle)` : name;
    copy.setAttribute('x', band ? (placeX(band.left) + placeX(band.right)) / 2 : placeX(x));
    copy.classList.toggle('folded', Boolean(lane?.idle && state.lanes));
  });
}
byId('heads').append(headsPicture);

const showSigns = () => {
  const legend = drawn('svg', { class: 'picture large', width: 860, height: 142, viewBox: '0 0 860 142', ...LETTERS });
  const signs = [...all('use'), ...all('text')].filter((it) => number(it, 'y') < HEADS && !it.matches('.head'));
  legend.append(...signs.map((it) => it.cloneNode(true)));
  document.querySelector('#signs > div').append(legend);
};

// ---- drawing

const view = byId('view'), lines = byId('lines');
const hover = drawn('rect', { class: 'row-hover', x: 0, y: -99, width: 0, height: 0 });
const chosen = drawn('rect', { class: 'row-chosen', x: 0, y: -99, width: 0, height: 0 });
(bands.at(-1)?.element ?? svg.querySelector('.page')).after(hover, chosen);

const scaleSigns = (scale) => svg.querySelectorAll(':scope > defs > g').forEach((it) => it.setAttribute('transform', `scale(${scale})`));
const wide = () => placeX(right) + LABEL - left;
const place = () => {
  known.clear();
  bendLanes();
  stackRows();
  const high = tops[rows.length] + 8;
  for (const move of movers) move(placeX, placeY, state.lanes);
  for (const move of headMovers) move();
  rows.forEach((group, row) => group.classList.toggle('folded', state.lines && !bright[row]));
  for (const { element, from, to } of ways) element.classList.toggle('folded', state.lines && !bright[from] && !(to !== null && bright[to]));
  for (const part of idleParts) part.classList.toggle('folded', state.lanes);
  setAll(svg, { viewBox: `${left} ${TOP} ${wide()} ${high}`, width: wide(), height: high, class: `picture ${state.height >= 10 ? 'large' : 'small tight'}` });
  setAll(headsPicture, { viewBox: `${left} ${HEADS} ${wide()} ${HEAD}`, width: wide(), height: HEAD });
  scaleSigns(Math.max(0.4, Math.min(1, state.height / 16)));
  setAll(svg.querySelector('.page'), { x: left, y: TOP, width: wide(), height: high });
  lines.style.height = `${high}px`;
  placeChosen(chosen, state.row);
  showMarks();
  showLines();
};
const placeChosen = (rect, row) => row === null
  ? setAll(rect, { height: 0 })
  : setAll(rect, { x: left, width: wide(), y: TOP + tops[row], height: Math.max(2, tops[row + 1] - tops[row]) });

// ---- the lines at the left: those that are in sight

const rowAtTop = (y) => {
  let low = 0, high = rows.length;
  while (low + 1 < high) { const middle = (low + high) >> 1; if (tops[middle] <= y) low = middle; else high = middle; }
  return low;
};
const linked = (text) => text.split(' ').flatMap((word) => SERIAL.test(word) && rowsOf.has(word)
  ? [' ', made('a', { href: `#${word}`, tabIndex: -1 }, word)] : [` ${word}`]);
const signOf = (fate) => {
  const sign = drawn('svg', { class: 'sign picture', viewBox: '-7 -7 14 14', width: 12, height: 12, 'aria-hidden': true });
  if (fate !== null) sign.append(drawn('use', { href: `#fate-${fate}`, class: fate }));
  return sign;
};
const lineOf = (row, high) => {
  const it = entries[row];
  const line = made('div', { id: `line-${it.line}`, className: 'line' });
  setAll(line, { role: 'option', 'aria-posinset': row + 1, 'aria-setsize': rows.length, 'aria-selected': row === state.row });
  setAll(line, { style: `top:${tops[row]}px;height:${high}px` });
  setAll(line, { 'aria-label': `line ${it.line}: ${texts[row]}${it.fate === null ? '' : `, ${it.fate}`}` });
  line.classList.toggle('dim', !bright[row]);
  const text = made('span', { className: `text of-${it.fate}` }, ...linked(texts[row]));
  line.append(made('span', { className: 'number' }, String(it.line)), signOf(it.fate), text);
  line.dataset.row = row;
  return line;
};
const showLines = () => {
  const from = Math.max(0, view.scrollTop - 60), to = view.scrollTop + view.clientHeight + 60;
  const shown = [];
  let free = -1;
  for (let row = rowAtTop(from); row < rows.length && tops[row] < to; row += 1) {
    const high = tops[row + 1] - tops[row];
    if (high === 0 || (tops[row] < free && row !== state.row)) continue;
    shown.push(lineOf(row, Math.max(high, TEXT)));
    free = tops[row] + Math.max(high, TEXT);
  }
  lines.replaceChildren(...shown);
  const current = state.row === null ? null : byId(`line-${entries[state.row].line}`);
  if (current) lines.setAttribute('aria-activedescendant', current.id); else lines.removeAttribute('aria-activedescendant');
  showWindow();
};

// ---- the bar of marks at the right

const windowMark = made('div', { className: 'window' });
const showMarks = () => {
  const total = tops[rows.length] || 1, high = byId('marks').clientHeight || 600, taken = new Set(), shown = [];
  for (const row of marks) {
    const spot = Math.round((tops[row] / total) * high / 4);
    if (taken.has(spot) || tops[row + 1] === tops[row]) continue;
    taken.add(spot);
    const { serial, fate, line } = entries[row];
    const mark = made('a', { href: hashOf(serial, row), tabIndex: -1, className: `of-${fate}`, title: `line ${line}: ${texts[row]}` });
    mark.style.top = `${100 * tops[row] / total}%`;
    mark.setAttribute('aria-hidden', true);
    shown.push(mark);
  }
  byId('marks').replaceChildren(windowMark, ...shown);
};
const showWindow = () => {
  const total = tops[rows.length] || 1;
  windowMark.style.top = `${Math.min(100, 100 * view.scrollTop / total)}%`;
  windowMark.style.height = `${Math.min(100, 100 * (view.clientHeight - HEAD) / total)}%`;
};

// ---- what is bright: the message's lines, or those that the filters let pass

const isOf = (row, serial) => entries[row].serial === serial || entries[row].reply === serial;
const light = () => {
  const before = bright.slice();
  for (let row = 0; row < rows.length; row += 1) bright[row] = state.message === null ? matched[row] : Number(isOf(row, state.message));
  const dims = state.message !== null || state.filtered;
  rows.forEach((group, row) => { if (before[row] !== bright[row]) group.classList.toggle('dim', !bright[row]); });
  for (const { element, from, to, serial } of ways) {
    const lit = state.message !== null ? serial === state.message : bright[from] || (to !== null && bright[to]);
    element.classList.toggle('dim', dims && !lit);
  }
  if (state.lines) place(); else showLines();
};

// ---- what is selected

const hashOf = (message, row) => `#${message ?? ''}${row === null ? '' : `/${entries[row].line}`}`;
const selectedBy = (hash) => {
  const found = /^#(\d+\.\d+)?(?:\/(\d+))?$/.exec(decodeURIComponent(hash));
  const row = found?.[2] === undefined ? null : Number(found[2]) - (entries[0]?.line ?? 3);
  return { message: found?.[1] ?? null, row: row !== null && row >= 0 && row < rows.length ? row : null };
};
const reveal = (row) => {
  const top = tops[row], high = view.clientHeight - HEAD;
  if (top < view.scrollTop + 4 || top + state.height > view.scrollTop + high - 4) view.scrollTop = Math.max(0, top - high / 3);
  const places = [...touched[row]].map((lane) => placeX(lane.x) - left);
  const room = view.clientWidth - lines.offsetWidth;
  const [first, last] = [Math.min(...places), Math.max(...places)];
  if (places.length && (first < view.scrollLeft || last > view.scrollLeft + room)) view.scrollLeft = Math.max(0, first - room / 3);
};
const tell = (hash, steps) => {
  const [wanted, address] = hash === '#' ? ['', location.pathname + location.search] : [hash, hash];
  if (location.hash !== wanted) history[steps ? 'replaceState' : 'pushState'](null, '', address);
};
const select = (message, row, how = {}) => {
  const change = message !== state.message;
  Object.assign(state, { message, row });
  if (how.address !== false) tell(hashOf(message, row), how.step);
  if (change) light();
  placeChosen(chosen, row);
  const shown = row ?? rowsOf.get(message)?.[0] ?? null;
  if (shown !== null && how.reveal !== false) reveal(shown);
  showLines();
  showSide();
};
const selectRow = (row, how) => select(entries[row].serial ?? entries[row].reply, row, how);

// ---- the text at the side

const actorName = (actor) => actor === 'x' ? 'anyone outside' : `${NAMES[actor[0]]} ${actor.slice(1)}`;
const lineLink = (row) => made('a', { href: hashOf(state.message, row) }, `line ${entries[row].line}`);
const aboutWay = ({ from, to, number }) => {
  const got = receipts.get(wayName(from, to, number)) ?? [];
  const words = [`packet ${number} from node ${from} to node ${to}: `];
  if (!got.length) return made('li', { className: 'way' }, ...words, 'never received');
  return made('li', { className: 'way' }, ...words, 'received in ', ...got.flatMap((row, which) => which ? [' and ', lineLink(row)] : [lineLink(row)]));
};
const itemsOf = (row) => {
  const item = made('li', {}, lineLink(row), ...linked(texts[row]));
  if (row === state.row) item.setAttribute('aria-current', true);
  return entries[row].packet === null ? [item] : [item, aboutWay(entries[row].packet)];
};
// why a message ended so, as `why` tells it: of one that came back the cause that an entry tells, of a pending one where it is
const outcomesOf = (serial) => rowsOf.get(serial).map((row) => (entries[row].outcome ?? '').split(' ')).filter(([, of]) => of === serial);
const placeOf = (moves) => PENDING[moves.includes('accepted') ? 'accepted' : moves.at(-1)] ?? 'it waits to be sent';
const becauseOf = (serial, fate) => {
  const told = outcomesOf(serial);
  if (fate === 'pending') return `: ${placeOf(told.map(([word]) => word).filter((word) => word in PENDING))}`;
  const because = fate === 'returned' ? RETURNED[told.findLast(([word]) => word === 'returned' || word === 'zero')?.[2]] : ENDED[fate];
  return because === undefined ? '' : `: ${because}`;
};
const aboutMessage = (serial) => {
  if (!rowsOf.has(serial)) return [made('h2', {}, `Message ${serial}`), made('p', {}, 'No entry of this journal is about it.')];
  const fate = fateOf.get(serial) ?? null;
  const became = made('strong', { className: `of-${fate}` }, ` ${fate ?? 'was never accepted'}`);
  const told = made('p', {}, signOf(fate), became, becauseOf(serial, fate));
  const parts = [made('h2', {}, `Message ${serial}`), told, made('p', {}, `from endpoint ${serial.split('.')[0]}`)];
  if (requestOf.has(serial)) parts.push(made('p', {}, 'a reply to ', ...linked(requestOf.get(serial)).slice(1)));
  if (replyOf.has(serial)) parts.push(made('p', {}, 'its reply is ', ...linked(replyOf.get(serial)).slice(1)));
  return [...parts, made('ol', {}, ...rowsOf.get(serial).flatMap(itemsOf))];
};
const aboutLine = (row) => {
  const it = entries[row];
  const text = made('p', {}, made('code', {}, ...linked(texts[row])));
  return [made('h2', {}, `Line ${it.line}`), text, made('p', {}, `by ${actorName(it.actor)}, stamp ${it.stamp}`)];
};
const aboutChange = (row) => {
  const heading = made('h3', {}, 'What it changed');
  if (carried === null) return [heading, made('p', {}, 'This page carries no changes, since the report has more than 2,000 entries.')];
  const change = changes.get(entries[row].line) ?? '';
  return [heading, change ? made('pre', { className: 'changes' }, change) : made('p', {}, 'Nothing.')];
};
const countsOf = () => FATES.map((fate) => [fate, [...fateOf.values()].filter((it) => it === fate).length]).filter(([, count]) => count);
const aboutAll = () => {
  const items = countsOf().map(([fate, count]) => {
    const button = made('button', { type: 'button' }, signOf(fate), ` ${count} ${fate}`);
    button.onclick = () => { byId('by-fate').value = fate; filter(); };
    return made('p', {}, button);
  });
  return [made('h2', {}, `${fateOf.size} messages in ${rows.length} lines`), ...items, made('p', {}, 'Choose a line, an arrow or a serial.')];
};
const showSide = () => {
  const { message, row } = state;
  const told = [row === null ? [] : aboutLine(row), message === null ? [] : aboutMessage(message), row === null ? [] : aboutChange(row)].flat();
  byId('side').replaceChildren(...told.length ? told : aboutAll());
};

// ---- filters

const fields = ['search', 'by-message', 'by-endpoint', 'by-node', 'by-fate', 'by-kind'];
const passes = (row, [words, message, endpoint, node, fate, kind]) => {
  const it = entries[row];
  return (!words || texts[row].includes(words.toLowerCase()))
    && (!message || isOf(row, message) || (message.endsWith('.') && `${it.serial} ${it.reply}`.split(' ').some((serial) => serial.startsWith(message))))
    && (!endpoint || [...touched[row]].some((lane) => lane.endpoint === endpoint))
    && (!node || [...touched[row]].some((lane) => String(lane.node) === node))
    && (!fate || it.fate === fate)
    && (!kind || it.event.split(' ')[0] === kind);
};
const filter = () => {
  const wanted = fields.map((id) => byId(id).value.trim());
  state.filtered = wanted.some((it) => it);
  let count = 0;
  for (let row = 0; row < rows.length; row += 1) count += matched[row] = Number(passes(row, wanted));
  byId('matches').textContent = state.filtered ? `${count} of ${rows.length} lines` : '';
  const found = matched.indexOf(1);
  if (state.filtered && state.message !== null) select(null, null); else light();
  if (state.filtered && found >= 0 && !isInSight(found)) reveal(found);
};
const isInSight = (row) => tops[row] >= view.scrollTop && tops[row] < view.scrollTop + view.clientHeight - HEAD;
const offer = (id, values) => byId(id).append(...values.map((value) => made('option', { value }, value)));
const different = (values) => [...new Set(values)].filter((it) => it !== null && it !== undefined);

// ---- moving about

const step = (by) => {
  const start = state.row ?? (by > 0 ? rowAtTop(view.scrollTop) - 1 : rows.length);
  for (let row = start + by; row >= 0 && row < rows.length; row += by) {
    if (matched[row]) { selectRow(row, { step: true }); return; }
  }
};
const stepMark = (by) => {
  const from = state.row ?? -1;
  const next = by > 0 ? marks.find((row) => row > from) ?? marks[0] : marks.findLast((row) => row < from) ?? marks.at(-1);
  if (next !== undefined) selectRow(next);
};
const foldLanes = (on) => { state.lanes = byId('fold-lanes').checked = on; place(); if (state.row !== null) reveal(state.row); };
const letGo = () => {
  if (state.message !== null || state.row !== null) select(null, null);
  else byId('filters').reset();
};
const keys = {
  j: () => step(1), k: () => step(-1), n: () => stepMark(1), N: () => stepMark(-1), f: () => foldLanes(!state.lanes), Escape: letGo,
  '/': () => { byId('search').focus(); byId('search').select(); },
};
const goTo = (row) => { if (rows.length) selectRow(row); };
const listKeys = { ArrowDown: () => step(1), ArrowUp: () => step(-1), Home: () => goTo(0), End: () => goTo(rows.length - 1) };
const onKey = (event) => {
  if (event.ctrlKey || event.metaKey || event.altKey) return;
  const field = event.target.closest('input, select');
  if (field && event.key === 'Escape') { field.blur(); return; }
  if (field?.form && event.key === 'Enter') { event.preventDefault(); step(1); return; }
  const action = field ? undefined : (document.activeElement === lines ? listKeys[event.key] : undefined) ?? keys[event.key];
  if (!action) return;
  event.preventDefault();
  action();
};

// ---- the pointer

const spotOf = (event) => {
  const box = svg.getBoundingClientRect();
  return { x: event.clientX - box.left + left, y: event.clientY - box.top };
};
const distance = (spot, element) => {
  if (element.tagName !== 'line' || element.classList.contains('folded')) return Infinity;
  const [x1, y1, x2, y2] = ['x1', 'y1', 'x2', 'y2'].map((name) => number(element, name));
  const [dx, dy, y] = [x2 - x1, y2 - y1, spot.y + TOP];
  const along = Math.max(0, Math.min(1, ((spot.x - x1) * dx + (y - y1) * dy) / (dx * dx + dy * dy || 1)));
  return Math.hypot(x1 + along * dx - spot.x, y1 + along * dy - y);
};
const wayNear = (spot) => {
  let near = null, least = 5;
  for (const way of ways) {
    const far = distance(spot, way.element);
    if (far < least) { least = far; near = way; }
  }
  return near;
};
const onPicture = (event) => {
  const child = event.target.closest('#picture > svg > *'), spot = spotOf(event);
  const word = event.target.tagName === 'text' ? event.target.textContent : '';
  if (SERIAL.test(word)) { select(word, rows.indexOf(child), { reveal: false }); return; }
  const group = child?.tagName === 'g' ? rows.indexOf(child) : -1;
  const way = wayOf.get(child) ?? (group < 0 ? wayNear(spot) : null);
  if (way) { select(way.serial, way.from, { reveal: false }); return; }
  if (rows.length) selectRow(group < 0 ? rowAtTop(spot.y) : group, { reveal: false });
};
const onMove = (event) => placeChosen(hover, rows.length ? rowAtTop(spotOf(event).y) : null);

// ---- printing: the picture as it was drawn

const asDrawn = () => {
  const same = (it) => it;
  for (const move of movers) move(same, same, state.lanes);
  setAll(svg, { viewBox: original.box, class: original.class, width: original.width, height: original.height });
  setAll(svg.querySelector('.page'), { x: 0, y: 0, width: original.width, height: original.height });
  scaleSigns(unit === 18 ? 1 : 0.4);
};

// ---- at the beginning

const listen = () => {
  let due = false;
  view.addEventListener('scroll', () => { if (!due) { due = true; requestAnimationFrame(() => { due = false; showLines(); }); } });
  byId('picture').addEventListener('click', onPicture);
  byId('picture').addEventListener('pointermove', onMove);
  byId('picture').addEventListener('pointerleave', () => placeChosen(hover, null));
  lines.addEventListener('click', (event) => {
    const line = event.target.closest('.line');
    if (line && !event.target.closest('a')) selectRow(Number(line.dataset.row), { reveal: false });
  });
  byId('filters').addEventListener('input', filter);
  byId('filters').addEventListener('submit', (event) => event.preventDefault());
  byId('filters').addEventListener('reset', () => setTimeout(filter));
  byId('next-mark').onclick = () => stepMark(1);
  byId('previous-mark').onclick = () => stepMark(-1);
  byId('fold-lanes').onchange = (event) => foldLanes(event.target.checked);
  byId('fold-lines').onchange = (event) => { state.lines = event.target.checked; place(); };
  byId('height').oninput = (event) => { state.height = Number(event.target.value); place(); };
  document.addEventListener('keydown', onKey);
  for (const name of ['popstate', 'hashchange']) window.addEventListener(name, fromAddress);
  window.addEventListener('resize', () => { showMarks(); showLines(); });
  window.addEventListener('beforeprint', asDrawn);
  window.addEventListener('afterprint', place);
};
const fromAddress = () => {
  const { message, row } = selectedBy(location.hash);
  if (message !== state.message || row !== state.row) select(message, row, { address: false });
};
const begin = () => {
  const totals = countsOf().map(([fate, count]) => `${count} ${fate}`);
  byId('totals').textContent = `${rows.length} lines; messages: ${totals.join(', ') || 'none'}`;
  document.title = `am2 report: ${rows.length} lines, ${totals.join(', ') || 'no messages'}`;
  setAll(svg, { role: 'img', 'aria-label': `The picture of ${rows.length} lines, which stand as a list in front of it` });
  offer('by-endpoint', different(lanes.map((it) => it.endpoint)).sort((a, b) => a - b));
  offer('by-node', different(bands.map((it) => String(it.node))));
  offer('by-fate', FATES.filter((fate) => entries.some((it) => it.fate === fate)));
  offer('by-kind', different(entries.map((it) => it.event.split(' ')[0])).sort());
  view.style.setProperty('--longest', Math.max(...texts.map((it) => it.length), 10));
  byId('height').value = state.height;
  for (const id of ['bar', 'corner', 'heads', 'lines', 'marks', 'side']) byId(id).hidden = false;
  document.body.classList.add('ready');
  showSigns();
  listen();
  place();
  showSide();
  fromAddress();
};
begin();
})();
