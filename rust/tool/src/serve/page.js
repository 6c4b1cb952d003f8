// The map on the page. Which marks are shown is asked of the server, which asks the library;
// here they are only drawn.
"use strict";

const FARTHEST = 32768;
const LARGEST_K = 65536;
const LAST_STOP = 16;
const PATTERN_RADIUS = 7;
const GLYPH_RADIUS = 2.5;
const LEAST_RADIUS = 1.5;
const DOT_RADIUS = 2.5;
const MOST_BESIDE = 400;
const QUIET = 250;

const at = (id) => document.getElementById(id);
const map = at("map");
const drawing = at("drawing");
const moved = at("moved");
const looks = [...document.querySelectorAll("#counts tbody tr")].map((row) => row.dataset);
const places = (text) => text.split(" ").map(Number);
const across = places(document.body.dataset.across);
const down = places(document.body.dataset.down);
const squares = document.body.dataset.shape === "squares";
const calm = matchMedia("(prefers-reduced-motion: reduce)");

// What is looked at: the middle in turned places, 64 times the zoom, how many pixels of a label
// one pixel of this screen stands for, and the turn.
const now = { x: 0, y: 0, k: 64, density: 4, turn: 0 };
// What was last drawn, and from which answer.
let drawn = { ...now };
let scene = { labels: [], dots: [], counts: [] };
let chosen = null;
let told = null;
let from = 0;

// Map units for a pixel of this screen.
const unit = (state) => (state.k / 64) * state.density;
const clamp = (value, low, high) => Math.min(Math.max(value, low), high);
const edge = (value) => clamp(value, -FARTHEST, FARTHEST);

// The size of the map, read when it changes: to read it for each label would be slow.
let room = { width: 1, height: 1 };
const size = () => room;

function measure() {
  room = { width: map.clientWidth, height: map.clientHeight };
}

// The part of the window that can be asked for: a rectangle of whole numbers within the edges.
function rectangle(state) {
  const { width, height } = size();
  const wide = (width / 2) * unit(state);
  const high = (height / 2) * unit(state);
  return [
    edge(Math.floor(state.x - wide)), edge(Math.ceil(state.x + wide)),
    edge(Math.floor(state.y - high)), edge(Math.ceil(state.y + high)),
  ];
}

function query(state) {
  return `view=${rectangle(state).join(",")}&zoom=${state.k}/64&turn=${state.turn}`;
}

async function ask(path) {
  const answer = await fetch(path);
  if (!answer.ok) {
    throw new Error((await answer.text()).trim());
  }
  return answer.json();
}

// Asks for the view and draws it. While an answer is on its way, only the last wish is kept.
let asking = false;
let again = false;
async function refresh() {
  if (asking) {
    again = true;
    return;
  }
  asking = true;
  do {
    again = false;
    await once({ ...now });
  } while (again);
  asking = false;
}

async function once(wished) {
  try {
    const hidden = at("hidden").checked ? "&hidden=1" : "";
    scene = await ask(`/view?${query(wished)}${hidden}`);
    drawn = wished;
    say("trouble", "");
    draw();
    showControls();
    showCounts();
    settle();
  } catch (error) {
    const turned = wished.turn !== drawn.turn;
    say("trouble", turned && squares ? `Squares are not turned: ${error.message}` : error.message);
    if (turned) {
      Object.assign(now, drawn);
      shift();
    }
  }
}

function say(id, text) {
  if (at(id).textContent !== text) {
    at(id).textContent = text;
  }
}

// Where a turned place is drawn on this screen.
function point(state, x, y) {
  const { width, height } = size();
  const scale = 1 / unit(state);
  return [width / 2 + (x - state.x) * scale, height / 2 + (y - state.y) * scale];
}

const labelRadius = (state, radius) => Math.max(radius / state.density, LEAST_RADIUS);
const px = (value) => Math.round(value * 100) / 100;

function draw() {
  const { width, height } = size();
  drawing.setAttribute("viewBox", `0 0 ${width} ${height}`);
  moved.innerHTML = drawLabels() + drawHidden() + numbers() + ring();
  moved.removeAttribute("transform");
  shift();
}

// Many small things of one look are drawn as one path, which is quick for thousands of them.
class Batch {
  constructor() {
    this.paths = new Map();
  }

  add(group, radius, x, y) {
    const key = `${group} ${Math.round(radius * 2) / 2}`;
    const path = this.paths.get(key) || [];
    path.push(`M${px(x)} ${px(y)}h.01`);
    this.paths.set(key, path);
  }

  write() {
    const cap = squares ? "square" : "round";
    let out = "";
    for (const [key, path] of this.paths) {
      const [group, radius] = key.split(" ").map(Number);
      const stroke = (colour, width, count) => `<path d="${path.join("")}" fill="none" stroke="${colour}" stroke-width="${width}" stroke-linecap="${cap}" data-marks="${count}"/>`;
      // The cap of a square is as wide as the stroke; the outline goes below.
      out += stroke("#222222", 2 * radius + 0.6, 0) + stroke(looks[group].fill, 2 * radius - 0.6, path.length);
    }
    return out;
  }
}

function drawLabels() {
  const small = new Batch();
  const large = [];
  for (const label of scene.labels) {
    const [, x, y, radius, group] = label;
    const r = labelRadius(drawn, radius);
    if (r < GLYPH_RADIUS) {
      small.add(group, r, ...point(drawn, x, y));
    } else {
      large.push(drawLabel(label));
    }
  }
  return small.write() + large.join("");
}

// The hidden marks, and the lines to those that live there now.
function drawHidden() {
  const dots = new Batch();
  const lines = [];
  for (const [, x, y, group, , toX, toY] of scene.dots) {
    const [x1, y1] = point(drawn, x, y);
    const [x2, y2] = point(drawn, toX, toY);
    lines.push(`M${px(x1)} ${px(y1)}L${px(x2)} ${px(y2)}`);
    dots.add(group, DOT_RADIUS, x1, y1);
  }
  const width = lines.length > 300 ? 0.4 : 0.8;
  return `<path d="${lines.join("")}" fill="none" stroke="#222222" stroke-width="${width}" stroke-opacity="0.7"/>${dots.write()}`;
}

function drawLabel([mark, x, y, radius, group]) {
  const [cx, cy] = point(drawn, x, y);
  const r = labelRadius(drawn, radius);
  const look = looks[group];
  const fill = r >= PATTERN_RADIUS ? `url(#fill-${group})` : look.fill;
  const paint = `fill="${fill}" stroke="#222222" stroke-width="${px(clamp(r / 6, 0.4, 1.4))}" data-mark="${mark}"`;
  const shape = squares
    ? `<rect x="${px(cx - r)}" y="${px(cy - r)}" width="${px(2 * r)}" height="${px(2 * r)}" ${paint}/>`
    : `<circle cx="${px(cx)}" cy="${px(cy)}" r="${px(r)}" ${paint}/>`;
  return shape + glyph(look, cx, cy, r);
}

function glyph(look, cx, cy, r) {
  if (r < GLYPH_RADIUS || r >= PATTERN_RADIUS || look.glyph === "") {
    return "";
  }
  const thick = look.letter === "S" ? 0.7 : 0.3;
  return `<path d="${look.glyph}" transform="translate(${px(cx)} ${px(cy)}) scale(${px(r)})" fill="none" stroke="#222222" stroke-width="${thick}" stroke-linecap="round"/>`;
}

// The numbers, inside their labels where these have room, else beside them where nothing is.
function numbers() {
  const taken = [];
  const later = [];
  let out = "";
  for (const [mark, x, y, radius, group] of scene.labels) {
    const [cx, cy] = point(drawn, x, y);
    const r = labelRadius(drawn, radius);
    const text = looks[group].letter + mark;
    const inside = within(cx, cy, r, text.length);
    if (inside) {
      out += number(text, ...inside);
    } else {
      later.push([text, cx, cy, r]);
    }
    taken.push([cx - r, cx + r, cy - r, cy + r]);
  }
  if (later.length > MOST_BESIDE) {
    return out;
  }
  for (const [, x, y] of scene.dots) {
    const [cx, cy] = point(drawn, x, y);
    taken.push([cx - DOT_RADIUS, cx + DOT_RADIUS, cy - DOT_RADIUS, cy + DOT_RADIUS]);
  }
  return out + later.map(([text, cx, cy, r]) => beside(taken, text, cx, cy, r)).join("");
}

function within(cx, cy, r, letters) {
  const { width, height } = size();
  const x = clamp(cx, 15, Math.max(15, width - 15));
  const y = clamp(cy, 15, Math.max(15, height - 15));
  const [dx, dy] = [Math.abs(x - cx), Math.abs(y - cy)];
  const off = squares ? Math.max(dx, dy) : Math.hypot(dx, dy);
  const letter = Math.min(15, (1.5 * (r - off)) / (0.62 * letters));
  return letter >= 8 ? [x, y, letter] : null;
}

function beside(taken, text, cx, cy, r) {
  const letter = 9;
  const [wide, high] = [(0.62 * letter * text.length) / 2, letter / 2];
  const spots = [[cx + r + wide + 2, cy], [cx - r - wide - 2, cy], [cx, cy - r - high - 1], [cx, cy + r + high + 1]];
  for (const [x, y] of spots) {
    const box = [x - wide, x + wide, y - high, y + high];
    if (!taken.some(([a, b, c, d]) => a < box[1] && box[0] < b && c < box[3] && box[2] < d)) {
      taken.push(box);
      return number(text, x, y, letter);
    }
  }
  return "";
}

function number(text, x, y, letter) {
  return `<text x="${px(x)}" y="${px(y + 0.36 * letter)}" font-size="${px(letter)}">${text}</text>`;
}

// The ring around the chosen mark.
function ring() {
  const label = scene.labels.find(([mark]) => mark === chosen);
  const dot = scene.dots.find(([mark]) => mark === chosen);
  if (!label && !dot) {
    return "";
  }
  const [, x, y] = label || dot;
  const [cx, cy] = point(drawn, x, y);
  const r = (label ? labelRadius(drawn, label[3]) : DOT_RADIUS) + 4;
  const shape = (paint) => squares && label
    ? `<rect x="${px(cx - r)}" y="${px(cy - r)}" width="${px(2 * r)}" height="${px(2 * r)}" fill="none" ${paint}/>`
    : `<circle cx="${px(cx)}" cy="${px(cy)}" r="${px(r)}" fill="none" ${paint}/>`;
  return shape('stroke="#ffffff" stroke-width="6"') + shape('stroke="#0058c4" stroke-width="3"');
}

// Moves what was drawn to where it belongs until the next answer is there.
function shift() {
  if (drawn.turn !== now.turn) {
    return;
  }
  const { width, height } = size();
  const scale = unit(drawn) / unit(now);
  const x = width / 2 - (width / 2) * scale + (drawn.x - now.x) / unit(now);
  const y = height / 2 - (height / 2) * scale + (drawn.y - now.y) / unit(now);
  if (scale === 1 && x === 0 && y === 0) {
    moved.removeAttribute("transform");
  } else {
    moved.setAttribute("transform", `translate(${px(x)} ${px(y)}) scale(${scale})`);
  }
}

function change(wished) {
  Object.assign(now, wished);
  now.x = edge(now.x);
  now.y = edge(now.y);
  shift();
  refresh();
}

function showControls() {
  const stop = Math.log2(drawn.k);
  at("stop").value = Number.isInteger(stop) ? String(stop) : "";
  if (document.activeElement !== at("wheel")) {
    at("wheel").value = drawn.k;
  }
  at("density").value = String(drawn.density);
  at("nearer").disabled = drawn.k <= 1;
  at("farther").disabled = drawn.k >= LARGEST_K;
  const hidden = at("hidden").checked ? "&hidden=1" : "";
  at("picture").href = `/picture.svg?${query(drawn)}${hidden}`;
}

function showCounts() {
  const rows = document.querySelectorAll("#counts tbody tr, #counts tfoot tr");
  rows.forEach((row, group) => {
    row.querySelectorAll("td").forEach((cell, column) => {
      cell.textContent = scene.counts[group][column];
    });
  });
}

// What is said, and the table, follow when the view has come to rest.
let resting = 0;
function settle() {
  clearTimeout(resting);
  resting = setTimeout(() => {
    const all = scene.counts[scene.counts.length - 1];
    say("said", `${scene.said}: ${all[0]} of ${all[4]} marks shown, ${all[2]} hidden.`);
    from = 0;
    showRows();
    if (told !== null) {
      tell(told, false);
    }
  }, QUIET);
}

// Zooming keeps the place under a point of the screen, its middle if none is given.
function zoomTo(k, pointer) {
  const next = clamp(Math.round(k), 1, LARGEST_K);
  const { width, height } = size();
  const [px0, py0] = pointer || [width / 2, height / 2];
  const [dx, dy] = [px0 - width / 2, py0 - height / 2];
  const grown = unit({ ...now, k: next }) - unit(now);
  change({ k: next, x: now.x - dx * grown, y: now.y - dy * grown });
}

function toStop(direction) {
  const stop = Math.log2(now.k);
  const next = direction < 0 ? Math.ceil(stop) - 1 : Math.floor(stop) + 1;
  zoomTo(2 ** clamp(next, 0, LAST_STOP));
}

function byWheel(direction, pointer) {
  const next = Math.round(now.k * 2 ** (direction / 4));
  zoomTo(next === now.k ? now.k + direction : next, pointer);
}

function pan(dx, dy, part) {
  const { width, height } = size();
  change({ x: now.x + dx * part * width * unit(now), y: now.y + dy * part * height * unit(now) });
}

// A quarter turn takes x, y to -y, x; so goes the middle of the view.
function turn() {
  change({ turn: (now.turn + 1) % 4, x: -now.y, y: now.x });
}

// Shows all places, at the nearest stop at which they have room.
function everything() {
  let [left, right, top, bottom] = [...across, ...down];
  for (let done = 0; done < now.turn; done += 1) {
    [left, right, top, bottom] = [-bottom, -top, left, right];
  }
  const { width, height } = size();
  const wanted = Math.max((right - left) / (width * 0.9), (bottom - top) / (height * 0.9), 1 / 64);
  const stop = Math.ceil(Math.log2((64 * wanted) / now.density));
  const k = 2 ** clamp(stop, 0, LAST_STOP);
  change({ k, x: (left + right) / 2, y: (top + bottom) / 2 });
}

// The mark at a point of the screen, or the nearest one within a few pixels.
function markAt(px0, py0) {
  let best = null;
  let least = 7;
  const near = (mark, x, y, r) => {
    const [cx, cy] = point(drawn, x, y);
    const [dx, dy] = [Math.abs(px0 - cx), Math.abs(py0 - cy)];
    const off = (squares ? Math.max(dx, dy) : Math.hypot(dx, dy)) - r;
    if (off < least) {
      least = off;
      best = mark;
    }
  };
  for (const [mark, x, y] of scene.dots) {
    near(mark, x, y, DOT_RADIUS + 3);
  }
  if (best !== null && least <= 0) {
    return best;
  }
  for (const [mark, x, y, radius] of scene.labels) {
    near(mark, x, y, labelRadius(drawn, radius));
  }
  return best;
}

function choose(mark) {
  chosen = mark;
  draw();
  const label = scene.labels.find(([number_]) => number_ === mark);
  const dot = scene.dots.find(([number_]) => number_ === mark);
  if (label) {
    say("said", `Mark ${mark}, ${looks[label[4]].name}, at ${label[1]}, ${label[2]}, radius ${label[3]}. Enter tells why.`);
  } else if (dot) {
    say("said", `Mark ${mark}, ${looks[dot[3]].name}, hidden: mark ${dot[4]} lives there now. Enter tells why.`);
  }
}

function chooseNext(direction) {
  const marks = [...scene.labels, ...scene.dots].map(([mark]) => mark).sort((a, b) => a - b);
  if (marks.length === 0) {
    say("said", "No mark is in this view.");
    return;
  }
  const behind = direction > 0
    ? marks.find((mark) => chosen === null || mark > chosen)
    : marks.findLast((mark) => chosen === null || mark < chosen);
  choose(behind ?? (direction > 0 ? marks[0] : marks[marks.length - 1]));
}

// Tells why a mark is where it is.
async function tell(mark, isNew = true) {
  try {
    const why = await ask(`/why?mark=${mark}&${query(drawn)}`);
    told = mark;
    at("mark").value = mark;
    at("go").disabled = false;
    at("go").dataset.place = `${why.x} ${why.y}`;
    if (isNew) {
      say("trouble", "");
      choose(mark);
    }
    writeWhy(why);
  } catch (error) {
    say("trouble", error.message);
  }
}

function element(name, text) {
  const made = document.createElement(name);
  made.textContent = text;
  return made;
}

function writeWhy(why) {
  const inView = element("p", `In this view mark ${why.mark} is ${why.now}.`);
  const list = document.createElement("ol");
  why.sentences.forEach((sentence) => list.append(element("li", sentence)));
  if (why.more > 0) {
    list.append(element("li", `And so on: ${why.more} sentences more.`));
  }
  const key = inView.textContent + list.textContent;
  if (at("why").dataset.key === key) {
    return;
  }
  at("why").dataset.key = key;
  at("why").replaceChildren(inView, list, chainOf(why.chain));
}

// The marks of a chain, each a way to what is said of it.
function chainOf(chain) {
  const line = document.createElement("p");
  if (chain.length < 2) {
    return line;
  }
  line.append("Chain: ");
  chain.slice(0, 12).forEach((mark, place) => {
    line.append(place > 0 ? " goes by " : "", whyButton(mark));
  });
  line.append(chain.length > 12 ? " and so on" : "");
  return line;
}

function whyButton(mark) {
  const button = element("button", mark);
  button.type = "button";
  button.setAttribute("aria-label", `Why mark ${mark}`);
  button.addEventListener("click", () => tell(mark));
  return button;
}

async function showRows() {
  try {
    const held = await ask(`/hold?${query(drawn)}&fate=${at("fate").value}&from=${from}`);
    at("numbers").replaceChildren(...held.numbers.map((line) => element("li", line)));
    document.querySelector("#rows tbody").replaceChildren(...held.rows.map(rowOf));
    const last = held.from + held.rows.length;
    say("rows-said", held.found === 0 ? "no rows" : `${held.from + 1} to ${last} of ${held.found}`);
    at("before").disabled = held.from === 0;
    at("next").disabled = last >= held.found;
    at("next").dataset.last = last;
  } catch (error) {
    say("trouble", error.message);
  }
}

function rowOf(row) {
  const line = document.createElement("tr");
  line.className = row.explained ? "" : "unexplained";
  const lineCell = element("td", row.line ?? "-");
  lineCell.className = "line";
  const mark = document.createElement("th");
  mark.scope = "row";
  mark.append(row.mark === null ? "-" : whyButton(row.mark));
  line.append(lineCell, mark, element("td", row.where), element("td", row.what));
  return line;
}

const KEYS = {
  ArrowLeft: (event) => pan(-1, 0, event.shiftKey ? 1 : 0.2),
  ArrowRight: (event) => pan(1, 0, event.shiftKey ? 1 : 0.2),
  ArrowUp: (event) => pan(0, -1, event.shiftKey ? 1 : 0.2),
  ArrowDown: (event) => pan(0, 1, event.shiftKey ? 1 : 0.2),
  "+": () => toStop(-1),
  "=": () => toStop(-1),
  "-": () => toStop(1),
  PageUp: () => byWheel(-1),
  PageDown: () => byWheel(1),
  e: everything,
  t: turn,
  h: () => at("hidden").click(),
  n: () => chooseNext(1),
  p: () => chooseNext(-1),
  Enter: () => chosen !== null && tell(chosen),
  Escape: () => choose(null),
};

function listenToKeys() {
  map.addEventListener("keydown", (event) => {
    const key = event.key.length === 1 ? event.key.toLowerCase() : event.key;
    if (event.ctrlKey || event.altKey || event.metaKey || !(key in KEYS)) {
      return;
    }
    event.preventDefault();
    KEYS[key](event);
  });
}

function listenToMouse() {
  let grip = null;
  const here = (event) => {
    const box = map.getBoundingClientRect();
    return [event.clientX - box.left - map.clientLeft, event.clientY - box.top - map.clientTop];
  };
  map.addEventListener("pointerdown", (event) => {
    if (event.button !== 0) {
      return;
    }
    grip = { at: here(event), x: now.x, y: now.y, far: false };
    map.setPointerCapture(event.pointerId);
  });
  map.addEventListener("pointermove", (event) => {
    if (!grip) {
      return;
    }
    const [x, y] = here(event);
    const [dx, dy] = [x - grip.at[0], y - grip.at[1]];
    grip.far = grip.far || Math.hypot(dx, dy) > 4;
    if (grip.far) {
      map.classList.add("held");
      change({ x: grip.x - dx * unit(now), y: grip.y - dy * unit(now) });
    }
  });
  map.addEventListener("pointerup", (event) => {
    const mark = grip && !grip.far ? markAt(...here(event)) : null;
    grip = null;
    map.classList.remove("held");
    if (mark !== null) {
      tell(mark);
    }
  });
  map.addEventListener("pointercancel", () => { grip = null; map.classList.remove("held"); });
  map.addEventListener("wheel", (event) => {
    event.preventDefault();
    if (event.deltaY !== 0) {
      byWheel(Math.sign(event.deltaY), here(event));
    }
  }, { passive: false });
}

// Centres the view on a place of the reel, which is turned as the view is.
function goTo(x, y) {
  for (let done = 0; done < now.turn; done += 1) {
    [x, y] = [-y, x];
  }
  change({ x, y });
  map.scrollIntoView({ block: "nearest", behavior: calm.matches ? "auto" : "smooth" });
}

function listenToControls() {
  at("nearer").addEventListener("click", () => toStop(-1));
  at("farther").addEventListener("click", () => toStop(1));
  at("turn").addEventListener("click", turn);
  at("everything").addEventListener("click", everything);
  at("hidden").addEventListener("change", refresh);
  at("density").addEventListener("change", (event) => change({ density: Number(event.target.value) }));
  at("stop").addEventListener("change", (event) => event.target.value !== "" && zoomTo(2 ** event.target.value));
  at("wheel").addEventListener("change", (event) => zoomTo(Number(event.target.value) || now.k));
  document.querySelectorAll("[data-pan]").forEach((button) => {
    const [dx, dy] = places(button.dataset.pan);
    button.addEventListener("click", () => pan(dx, dy, 0.2));
  });
  at("ask").addEventListener("submit", (event) => {
    event.preventDefault();
    tell(Number(at("mark").value));
  });
  at("go").addEventListener("click", () => goTo(...places(at("go").dataset.place)));
  at("fate").addEventListener("change", () => { from = 0; showRows(); });
  at("before").addEventListener("click", () => { from = Math.max(0, from - 50); showRows(); });
  at("next").addEventListener("click", () => { from = Number(at("next").dataset.last); showRows(); });
}

function begin() {
  for (let stop = 0; stop <= LAST_STOP; stop += 1) {
    at("stop").append(new Option(stop, stop));
  }
  for (let power = 0; power <= 12; power += 1) {
    at("density").append(new Option(`1 : ${2 ** power}`, 2 ** power));
  }
  listenToKeys();
  listenToMouse();
  listenToControls();
  measure();
  new ResizeObserver(() => { measure(); refresh(); }).observe(map);
  everything();
}

begin();
