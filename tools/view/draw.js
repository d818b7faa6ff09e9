"use strict";
// The page of a run: what Model makes of it is drawn, and shown as it is asked for. Where things
// stand is left to the style sheet, so nothing is measured in scrolling, printing or resizing.
const ROWS = 40, ROW = 16, MOST_WORDS = 24, MOST_FINDS = 60;
const HINT = "↓ ↑ the next event and the one before, n p what stands out, o opens a fold, / finds";
const SVG = "http://www.w3.org/2000/svg";
const $ = (id) => document.getElementById(id);
// `of` is the number of the run, from 1, where the page has outcomes.
const view = {run: null, lay: null, at: 0, object: "", every: false, wires: false, of: 0,
  opened: new Set(), find: -1, layers: [], sources: new Map(), outcomes: []};
const name = (monitor) => Model.nameOf(view.run, monitor);
const line = (i) => view.run.lines[i];

function make(tag, cls, text = "", vars = {}) {
  const e = document.createElement(tag);
  e.className = cls;
  if (text !== "") e.append(text);
  for (const key in vars) e.style.setProperty("--" + key, vars[key]);
  return e;
}

// ---- the items of a lane

// What is said of a fold of local events, or of turns that changed nothing.
function labelOfMany(item) {
  const s = item.shown, steps = item.steps.map((i) => view.run.steps[i]), n = steps.length;
  if (item.kind === "turns") {
    const seen = [...new Set(steps.map((x) => x.found))];
    const found = s.does === "waits on" ? "waits"
      : seen.slice(0, 3).join(" ") + (seen.length > 3 ? " .." : "");
    return ["", `${n} ${n > 1 ? "turns" : "turn"}: ${found}`, name(s.monitor)];
  }
  const kind = steps.every((x) => x.kind === "local") ? "local" : "other";
  return ["", `${n} ${kind} events`, `${s.number}–${steps[n - 1].number}`];
}

function labelOfLock(s, arrow) {
  const verb = s.does === "makes the lock of" ? "makes fat"
    : s.does === "wakes" ? `wakes thread ${s.woken}`
    : s.does.replace(/ the( fat)? lock of$| (for|on|from)$/, "$1");
  const found = s.word ? ` ${s.found}${arrow}` : s.acts.includes("enter") ? " again" : "";
  return ["L", verb + found, name(s.monitor)];
}

// Sign, text, and what stands behind it in a lighter ink.
function labelOf(item) {
  const s = item.shown, arrow = s.writes ? `→${s.left}` : "";
  if (item.kind === "turns" || item.kind === "fold" && item.steps.length > 1) {
    return labelOfMany(item);
  }
  switch (s.kind) {
    case "part": return ["", s.part === "done" ? "done begins" : "the workers begin"];
    case "try": return ["", `attempt ${s.attempt} by ${s.found}`, name(s.monitor)];
    case "fail":
      return ["✗", `attempt ${s.attempt} fails: ${s.found}, not Free(${s.noted})`, name(s.group)];
    case "done":
      return ["✓", `attempt ${s.attempt}, ${s.found}: enter, ${s.between} steps, exit`,
        name(s.monitor)];
    case "begin": return ["▹", s.does, s.begins];
    case "end": return ["■", s.does];
    case "throw": return ["!", s.does];
    case "stop": return ["✗", s.isLast ? s.does : `comes to its end: ${s.end}`];
    case "print": return ["P", `prints ${s.prints ?? view.run.prints.get(s.found) ?? "?"}`];
    case "new": return ["+", `new @${s.found}`, s.spot && `${s.spot.class}.${s.spot.method}`];
    case "read": return ["R", `${s.cell} ${s.found}`, name(s.group)];
    case "write": return ["W", `${s.cell} ${s.found}→${s.left}`, name(s.group)];
    case "notify":
      return ["N", s.acts.filter((act) => act !== "do").join(), name(Model.notified(s) || "")];
    case "lock": case "turn": return labelOfLock(s, arrow);
    default:
      return ["", s.does || (s.spot && s.spot.instruction) || "",
        s.word ? `${s.cell} ${s.found}${arrow}` : ""];
  }
}

// A box of a lane over rows, a piece in each chunk through which it goes.
function box(cls, lane, from, to, vars) {
  const pieces = [];
  for (let c = Math.floor(from / ROWS); c <= Math.floor(to / ROWS); c++) {
    const first = Math.max(from, c * ROWS), last = Math.min(to, c * ROWS + ROWS - 1);
    const ways = (first > from ? " from-above" : "") + (last < to ? " goes-on" : "");
    const piece = make("div", cls + ways + (lane > 0 ? "" : " wide"), "",
      {k: Math.max(0, lane - 1), r: first - c * ROWS, h: last - first + 1, ...vars});
    pieces.push(piece);
    view.layers[c].append(piece);
  }
  return pieces;
}

function drawItem(item) {
  const isFolded = item.kind === "fold" || item.kind === "turns", more = item.steps.length - 1;
  const [sign, text, dim] = labelOf(item);
  const cls = `item ${item.kind}${isFolded ? "" : " solid"}`;
  const pieces = box(cls, item.lane, item.row, item.rowTo);
  const e = pieces[0];
  item.pieces = pieces;
  for (const piece of pieces) piece.dataset.i = item.shown.i;
  const isOpened = item.fold && item.fold.from === item.shown.i;
  if (more > 0 && isFolded || isOpened) e.append(make("s", "", more > 0 ? "▸" : "▾"));
  if (sign) e.append(make("b", "", sign));
  e.append(text);
  const tags = isFolded ? [] : view.run.notes.get(item.shown.i) || [];
  for (const tag of tags) e.append(make("u", "", tag));
  if (dim) e.append(" ", make("i", "", dim));
  if (more > 0 && !isFolded) e.append(make("s", "", `+${more}`));
}

// ---- what stands over several rows

// Attempts, locks that are held, and waits; those of a lane that overlap stand side by side.
function drawBars() {
  const {run, lay} = view, signs = {fails: "✗", finishes: "✓", open: ".."};
  const bars = [], ends = [];
  const add = (spans, cls, label) => {
    for (const x of spans) if (!view.object || x.monitor === view.object) {
      const to = x.open ? lay.rows.length - 1 : lay.itemOf[x.to].row;
      bars.push({x, from: lay.itemOf[x.from].row, to, cls: cls || x.fate, label: label(x)});
    }
  };
  add(run.attempts, "", (a) => `attempt ${a.number} ${signs[a.fate]} ${name(a.monitor)}`);
  add(run.holds, "hold", (h) => name(h.monitor));
  add(run.waits, "wait", (w) => `waits on ${name(w.monitor)}`);
  let most = 0;
  for (const bar of bars.sort((a, b) => a.from - b.from || b.to - a.to)) {
    const lane = bar.x.thread, taken = (ends[lane] = ends[lane] || []);
    const free = taken.findIndex((end) => end < bar.from), d = free < 0 ? taken.length : free;
    taken[d] = bar.to;
    most = Math.max(most, d + 1);
    if (bar.x.fate) box(`tint ${bar.cls}`, lane, bar.from, bar.to);
    for (const e of box(`bar ${bar.cls}`, lane, bar.from, bar.to, {d})) {
      e.title = bar.label;
      if (e.style.getPropertyValue("--h") > 3) e.append(bar.label);
    }
  }
  $("grid").style.setProperty("--strip", `${4 + 14 * most}px`);
}

// A line between two events, in each chunk through which it goes.
function drawArrow(from, to, cls) {
  const {run, lay} = view, a = lay.itemOf[from], b = lay.itemOf[to];
  if (a === b) return;
  const lane = (item, other) => Math.max(0, (item.lane || other.lane) - 1);
  const la = lane(a, b), lb = lane(b, a), wide = $("grid").clientWidth / run.lanes || 160;
  const strip = parseFloat($("grid").style.getPropertyValue("--strip"));
  const right = 1 - (strip + 14) / wide;
  const x = (here, there) => `${((here + (here <= there ? right : 0)) / run.lanes) * 100}%`;
  const [low, high] = a.row < b.row ? [a.row, b.row] : [b.row, a.row];
  for (let c = Math.floor(low / ROWS); c <= Math.floor(high / ROWS); c++) {
    const e = document.createElementNS(SVG, "line");
    const y = (item) => (item.row - c * ROWS + .5) * ROW;
    const values = {class: cls, x1: x(la, lb), x2: x(lb, la), y1: y(a), y2: y(b),
      "marker-end": "url(#head)"};
    for (const key in values) e.setAttribute(key, values[key]);
    view.layers[c].firstChild.append(e);
  }
}

function heads() {
  const div = make("div", "heads");
  for (let t = 1; t <= view.run.lanes; t++) {
    const o = view.run.threads[t] || {};
    const counts = ["elided", "failed", "locked", "inflated"].filter((key) => key in o);
    div.append(make("div", "", `thread ${t} ${o.end || ""}`));
    div.lastChild.append(make("small", "", counts.map((key) => `${key} ${o[key]}`).join(", ")));
  }
  return div;
}

function draw() {
  const run = view.run, lay = (view.lay = Model.layout(run, view)), grid = $("grid");
  const parts = [heads()];
  grid.style.setProperty("--n", run.lanes);
  grid.classList.toggle("many", run.lanes > 4);
  view.layers = [];
  for (let top = 0; top < lay.rows.length; top += ROWS) {
    const rows = lay.rows.slice(top, top + ROWS), layer = make("div", "lanes");
    const chunk = make("div", "chunk"), body = make("div", "body");
    layer.replaceChildren(document.createElementNS(SVG, "svg"));
    view.layers.push(layer);
    body.style.height = `${rows.length * ROW}px`;
    body.append(make("div", "numbers", rows.map((i) => run.steps[i].number).join("\n")), layer);
    chunk.append(heads(), body);
    parts.push(chunk);
  }
  drawBars();
  lay.items.forEach(drawItem);
  grid.replaceChildren(...parts);
  const isShown = (i) => !view.object || run.steps[i].group === view.object;
  for (const a of run.arrows) if (isShown(a.to) || isShown(a.from)) drawArrow(a.from, a.to, a.kind);
  for (const s of view.wires ? run.steps : []) {
    const isRead = s.kind === "read" && s.source >= 0 && run.steps[s.source].thread !== s.thread;
    if (isRead && isShown(s.i)) drawArrow(s.source, s.i, "wire");
  }
  $("count").textContent = `${run.steps.length} events, ${lay.rows.length} rows`;
}

// ---- the chosen event

function sourceAt(spot) {
  const text = spot && view.sources.get(spot.file);
  return text && spot.line in text ? {file: spot.file, text, line: spot.line} : undefined;
}

// What the event is in the plain machine.
function shareOf(s) {
  const [first, last] = s.plain;
  const steps = first > last ? "No step" : `Step ${first}${last > first ? ` to ${last}` : ""}`;
  const share = s.kind === "fail" ? "; what was owed is dropped."
    : s.kind === "done" ? ": the section counts here."
    : s.inAttempt ? ` yet; ${s.owed} owed behind it.` : ".";
  return `${steps} of the plain machine${share}`;
}

function drawSource(spot) {
  const at = sourceAt(spot);
  $("source").hidden = !at;
  if (!at) return;
  const top = Math.max(1, at.line - 3);
  const rows = at.text.slice(top, at.line + 4).map((text, k) => {
    const n = top + k, sign = n === at.line ? "▸" : " ";
    return make(n === at.line ? "b" : "span", "", `${sign}${String(n).padStart(4)} ${text}\n`);
  });
  $("source").replaceChildren(`${at.file}\n`, ...rows);
}

// From the write that it read to it, or from it to the reads of what it wrote.
function drawNear(s) {
  const {run} = view, i = s.i;
  if (s.source >= 0 && !s.stores && s.kind !== "fail") drawArrow(s.source, i, "near");
  if (!s.writes || s.cell === "lock") return;
  const {reads, writes} = run.words.get(s.word);
  const next = writes[Model.upTo(writes, i)] || run.steps.length;
  const of = reads.slice(Model.upTo(reads, i), Model.upTo(reads, next)).slice(0, 40);
  for (const r of of) drawArrow(i, r, "near");
}

function choose(i, scroll = true) {
  const {run, lay} = view, s = run.steps[i], item = lay.itemOf[i];
  view.at = i;
  document.querySelectorAll(".chosen").forEach((e) => e.classList.remove("chosen"));
  document.querySelectorAll(".near").forEach((e) => e.remove());
  for (const piece of item.pieces) piece.classList.add("chosen");
  const inline = item.lane > 0 ? "nearest" : "start";
  if (scroll) item.pieces[0].scrollIntoView({block: "nearest", inline});
  drawNear(s);
  const many = item.shown !== s || item.kind === "turns" ? `, one of ${item.steps.length}` : "";
  $("chosen").textContent = `Event ${s.number}${many}`;
  $("says").textContent = `${line(i)}\n${shareOf(s)}`;
  drawSource(s.spot);
  drawThreads(i);
  drawWords(i);
  drawBar(i);
  const of = view.outcomes.length ? `${view.of}:` : "", object = view.object ? `,${view.object}` : "";
  try {
    history.replaceState(null, "", `#${of}${s.number}${object}`);
  } catch { /* some frames refuse it */ }
}

function rowOf(cls, ...cells) {
  const tr = make("tr", cls);
  tr.append(...cells.map(([tag, text, of]) => make(tag, of || "", text)));
  return tr;
}

// Where each thread stands, what it tries and what it holds.
function drawThreads(i) {
  const {run} = view, rows = [];
  const isDuring = (x, t) => x.thread === t && x.from <= i && (x.open || x.to > i);
  for (let t = 0; t <= run.lanes; t++) {
    let k = i;
    while (k >= 0 && run.steps[k].thread !== t) k--;
    if (k < 0) continue;
    const s = run.steps[k], attempt = run.attempts.find((x) => isDuring(x, t));
    const holds = run.holds.filter((x) => isDuring(x, t)).map((x) => name(x.monitor)).join(", ");
    const where = s.spot && !s.isLast ? `${s.spot.class}.${s.spot.method} at ${s.spot.pc}` : s.does;
    const text = `${s.number} ${where}` +
      (attempt ? `; attempt ${attempt.number} by Free(${attempt.noted})` : "") +
      (holds ? `; holds ${holds}` : "");
    rows.push(rowOf(t === run.steps[i].thread ? "head" : "", ["th", String(t)], ["td", text]));
  }
  $("threads").replaceChildren(...rows);
}

// The objects and classes that were accessed last, and of each the words that were accessed; of
// many those that were written.
function drawWords(i) {
  const groups = Model.stateAt(view.run, i), known = new Map(), rows = [];
  for (const [group, {cells}] of groups) for (const c of cells) {
    if (group.startsWith("class ") && c.value[0] === "@") {
      known.set(c.value.slice(1), `${group.slice(6)}.${c.cell}`);
    }
  }
  const rank = ([group]) => /^\d+$/.test(group) ? Number(group)
    : group.startsWith("record") ? 1e9 : group === "counters" ? 2e9 : 0;
  const isAsked = ([group]) => !view.object || group === view.object || group.startsWith("record");
  const shown = [...groups].filter(isAsked).sort((a, b) => b[1].touched - a[1].touched)
    .slice(0, MOST_WORDS).sort((a, b) => rank(a) - rank(b));
  for (const [group, {cells}] of shown) {
    rows.push(rowOf("head", ["th", name(group)], ["th", known.get(group) || ""]));
    const some = cells.length > MOST_WORDS
      ? cells.filter((c) => c.now || c.by !== undefined).slice(-MOST_WORDS) : cells;
    for (const c of some) {
      const by = c.by === undefined ? "" : `of ${view.run.steps[c.by].number}`;
      rows.push(rowOf("", ["th", c.cell], ["td", c.value, c.now && "now"], ["th", by]));
    }
  }
  if (groups.size > shown.length) {
    rows.push(rowOf("", ["th", `and ${groups.size - shown.length} more`]));
  }
  $("words").replaceChildren(...rows);
}

// ---- keys, clicks and what is asked for

// To the next item, or that of the same lane, or to the next event.
function step(by, way) {
  const {run, lay} = view, here = lay.itemOf[view.at];
  if (way === "event") {
    if (run.steps[view.at + by]) choose(view.at + by);
    return;
  }
  let at = here.at + by;
  while (way === "lane" && lay.items[at] && lay.items[at].lane !== here.lane) at += by;
  if (lay.items[at]) choose(lay.items[at].shown.i);
}

function toggleFold() {
  const item = view.lay.itemOf[view.at], from = item.fold ? item.fold.from : item.from;
  if (from === undefined) return;
  if (!view.opened.delete(from)) view.opened.add(from);
  draw();
  choose(from);
}

function toFind(by) {
  const {finds} = view.run, many = finds.length;
  if (!many) return;
  view.find = view.find < 0 && by < 0 ? many - 1 : (view.find + by + many) % many;
  choose(finds[view.find].i);
}

function findText() {
  const text = $("find").value.toLowerCase(), many = view.run.steps.length;
  for (let k = 1; text && k <= many; k++) {
    const i = (view.at + k) % many;
    if (line(i).toLowerCase().includes(text)) return choose(i);
  }
}

function setObject(object) {
  $("object").value = view.object = object;
  draw();
  choose(view.at);
}

const KEYS = {
  ArrowDown: () => step(1), ArrowUp: () => step(-1),
  "Shift ArrowDown": () => step(1, "event"), "Shift ArrowUp": () => step(-1, "event"),
  ArrowRight: () => step(1, "lane"), ArrowLeft: () => step(-1, "lane"),
  n: () => toFind(1), p: () => toFind(-1), o: toggleFold,
  Home: () => choose(0), End: () => choose(view.run.steps.length - 1),
  Escape: () => setObject(""), "/": () => $("find").focus(),
  u: () => { if (view.outcomes.length) location.hash = ""; },
};

function hear(e) {
  const isTyping = e.target.matches("select, textarea, input:not([type=checkbox])");
  if (isTyping) {
    if (e.key === "Enter" && e.target.id === "find") findText();
    if (e.key === "Escape") e.target.blur();
    return;
  }
  const act = KEYS[(e.shiftKey && e.key.startsWith("Arrow") ? "Shift " : "") + e.key];
  if (!act || !view.run || e.ctrlKey || e.metaKey || e.altKey) return;
  act();
  e.preventDefault();
}

// What the pointer is on, or else the chosen event, in the bar below.
function hover(e) {
  const pointed = e.target.closest("[data-i]");
  drawBar(pointed ? Number(pointed.dataset.i) : view.at);
}

function drawBar(i) {
  const item = view.lay.itemOf[i], at = sourceAt(view.run.steps[i].spot);
  const isFolded = i !== view.at && (item.kind === "fold" || item.kind === "turns");
  $("hover").textContent = isFolded ? item.steps.slice(0, 9).map(line).join("  |  ") : line(i);
  $("hover-source").textContent = at ? `${at.file}:${at.line}  ${at.text[at.line].trim()}` : HINT;
}

function listen() {
  document.addEventListener("keydown", hear);
  $("grid").addEventListener("click", (e) => {
    const item = e.target.closest("[data-i]");
    if (item) choose(Number(item.dataset.i), false);
    if (e.target.tagName === "S") toggleFold();
  });
  $("grid").addEventListener("mouseover", hover);
  $("object").addEventListener("change", (e) => {
    e.target.blur();
    setObject(e.target.value);
  });
  for (const id of ["every", "wires"]) {
    $(id).addEventListener("change", () => {
      view[id] = $(id).checked;
      setObject(view.object);
    });
  }
}

function drawFinds() {
  const {finds} = view.run;
  const rows = finds.slice(0, MOST_FINDS).map((find) =>
    Object.assign(make("li", "", find.text), {onclick: () => choose(find.i)}));
  if (finds.length > MOST_FINDS) rows.push(make("p", "", `and ${finds.length - MOST_FINDS} more`));
  if (!rows.length) {
    const none = "No attempt fails in these events, no lock becomes fat, and each part returns.";
    rows.push(make("p", "", none));
  }
  $("finds").replaceChildren(...rows);
}

// ---- the runs of the page

// A run, with the event and the object that are asked for.
function showRun(of, number, object) {
  const told = (kind) => document.querySelectorAll(`.${kind}`)[of - 1].textContent;
  const run = (view.run = Model.read(told("objects"), told("lines")));
  const option = (value, label) => Object.assign(make("option", "", label), {value});
  const outcome = view.outcomes.find((row) => row.run === of);
  Object.assign(view, {of, opened: new Set(), find: -1});
  $("title").textContent = document.title =
    $("told").textContent + (outcome ? ` — ${outcome.what}, ${outcome.order}` : "");
  document.querySelector("main").hidden = !run.steps.length;
  $("count").textContent = "no events";
  if (!run.steps.length) return;
  const all = [...new Set([...run.words.values()].map((word) => word.group))];
  const groups = all.filter((group) => !/^(counters|record)/.test(group));
  $("object").replaceChildren(option("", "all"), ...groups.map((g) => option(g, name(g))));
  drawFinds();
  const asked = run.steps.findIndex((s) => s.number === number);
  view.at = asked >= 0 ? asked : run.finds.length ? run.finds[0].i : 0;
  setObject(groups.includes(object) ? object : "");
}

// What the runs end in, a row each, which opens a run that ends so.
function showOutcomes() {
  const head = ["ends in", "tries", "order"].map((text) => ["th", text]);
  const rows = view.outcomes.map((row) => {
    const order = row.order.replace(/^order /, "");
    const tr = rowOf("", ["td", ""], ["td", row.times], ["td", order]);
    const text = row.run ? Object.assign(make("a", "", row.what), {href: `#${row.run}:`}) : row.what;
    tr.firstChild.append(text);
    return tr;
  });
  view.run = null;
  $("title").textContent = document.title = $("told").textContent;
  $("rows").replaceChildren(rowOf("head", ...head), ...rows);
}

// Shows what the address says: `58,2071` the event 58 and the object 2071, in a page with outcomes
// behind the number of the run and a colon.
function route() {
  const text = decodeURIComponent(location.hash.slice(1));
  const [, of, number, object] = /^(?:(\d+):)?(\d*),?(.*)$/.exec(text) || [];
  const isList = view.outcomes.length > 0 && !view.outcomes.some((row) => row.run === Number(of));
  $("list").hidden = !isList;
  $("back").hidden = isList || !view.outcomes.length;
  const ofRun = document.querySelectorAll(".tools > label, .tools > details, #count");
  ofRun.forEach((e) => { e.hidden = isList; });
  $("bar").hidden = document.querySelector("main").hidden = isList;
  if (isList) showOutcomes();
  else showRun(view.outcomes.length ? Number(of) : 1, Number(number), object);
}

function begin() {
  document.querySelectorAll("pre[data-file]").forEach((e) =>
    view.sources.set(e.dataset.file, ["", ...e.textContent.split("\n")]));
  if ($("outcomes")) view.outcomes = JSON.parse($("outcomes").textContent);
  listen();
  addEventListener("hashchange", route);
  route();
}

begin();
