"use strict";
// What is made of a run without a page: attempts, locks that are held, waits, the words that are
// shared, what stands out, and the rows in which it is shown. The gate runs this part by itself.
const Model = (() => {
  // Local events that go with the event behind them.
  const SHORT = 3;
  const TRIES = /^(takes (the|back)|flags)/;

  // Of rising numbers, how many are no greater than n.
  function upTo(list, n) {
    let low = 0, high = list.length;
    while (low < high) {
      const middle = (low + high) >> 1;
      if (list[middle] > n) high = middle; else low = middle + 1;
    }
    return low;
  }

  // ---- events

  function kindOf(s) {
    if (s.part) return "part";
    if (s.fate) return {begins: "try", fails: "fail", finishes: "done"}[s.fate];
    if (s.end && s.end !== "returned") return "stop";
    if (s.isLast) return "end";
    if (s.acts.includes("begin")) return s.thread ? "local" : "begin";
    if (s.throws) return "throw";
    if (s.does === "looks at the lock of") return "turn";
    if (TRIES.test(s.does) && s.stores && !s.writes) return "turn";
    if (s.does === "waits on") return Keys.isAmong(s.thread, s.found) ? "turn" : "lock";
    if (s.monitor !== undefined && s.does) return "lock";
    if (s.acts.some((act) => act.startsWith("notify"))) return "notify";
    if (!s.word || ["header", "lock", "null"].includes(s.cell)) return "local";
    if (s.group === "counters") return s.cell === "next ticket" ? "print" : "new";
    return s.stores ? "write" : "read";
  }

  // An event with its access, and where it stands among the events.
  function stepOf(event, i) {
    const s = {...event, ...event.access, i};
    s.writes = s.stores && s.left !== s.found;
    return Object.assign(s, {kind: kindOf(s)});
  }

  // ---- the run

  // Of the objects, one on a line, and of the lines that say the same.
  function read(objects, lines) {
    const run = {steps: [], ends: [], prints: new Map(), threads: [], attempts: [], holds: [],
      waits: [], arrows: [], notes: new Map(), finds: [], words: new Map(), classes: new Map(),
      born: new Map(), lines: []};
    for (const text of objects.split("\n")) if (text) {
      const o = JSON.parse(text);
      if (o.what === "event" || o.what === "part") {
        run.steps.push(stepOf(Keys.eventOf(o), run.steps.length));
      } else if (o.what === "end") run.ends.push(Keys.endOf(o));
      else if (o.what === "print") run.prints.set(String(o.ticket), o.value);
      else if (o.what === "thread") run.threads[o.thread] = o;
    }
    run.lines = lines.split("\n").slice(0, run.steps.length);
    const most = (most, s) => Math.max(most, s.thread);
    run.lanes = run.steps.reduce(most, Math.max(1, run.threads.length - 1));
    note(run);
    return run;
  }

  // Goes through the events once, and then through what was found.
  function note(run) {
    const open = [], held = [];
    let plain = 0;
    for (const s of run.steps) {
      // the numbers of the plain machine's steps that it stands for
      s.plain = [plain + 1, plain += s.acts.length + (s.between || 0)];
      if (s.part) continue;
      if (s.word) noteWord(run, s);
      noteAttempt(run, s, open);
      held[s.thread] = held[s.thread] || new Map();
      s.holds = [...held[s.thread].keys()];
      if (s.kind !== "done") for (const act of s.acts) noteHold(run, s, act, held[s.thread]);
    }
    for (const span of [...run.attempts, ...run.holds, ...run.waits]) {
      if (span.to === undefined) Object.assign(span, {to: run.steps.length - 1, open: true});
    }
    for (const attempt of run.attempts) if (attempt.fate === "fails") tellFailure(run, attempt);
    for (const s of run.steps) tellStep(run, s);
    tellEnds(run);
    run.finds.sort((a, b) => a.i - b.i);
  }

  function noteWord(run, s) {
    const first = {group: s.group, cell: s.cell, first: s.found, at: s.i, writes: [], reads: []};
    const word = run.words.get(s.word) || first;
    run.words.set(s.word, word);
    s.source = word.writes.length ? word.writes.at(-1) : -1;
    if (s.writes || s.kind === "write") word.writes.push(s.i);
    if (!s.stores) word.reads.push(s.i);
    if (s.owner) run.classes.set(s.group, s.owner);
    if (s.does === "stores the header") run.born.set(s.group, s.i);
  }

  function noteAttempt(run, s, open) {
    const number = s.fate === "begins" ? s.attempt : s.inAttempt, t = s.thread;
    // One that was begun before the first line is begun by it.
    if (number && !open[t]) {
      const from = s.inAttempt ? 0 : s.i;
      open[t] = {thread: t, number, monitor: s.monitor || "?", from, reads: [], fate: "open"};
      run.attempts.push(open[t]);
    }
    if (s.fate) open[t].noted = s.noted;
    if (s.kind === "read" && s.inAttempt) open[t].reads.push(s.i);
    if (s.kind === "fail" || s.kind === "done") {
      Object.assign(open[t], {to: s.i, fate: s.fate, monitor: s.group});
      open[t] = undefined;
    }
  }

  // A lock is held from the plain entry to the plain exit. A wait gives it up, and takes it back as
  // often as it was entered.
  function noteHold(run, s, act, held) {
    const {monitor, thread} = s, now = held.get(monitor), wait = held.wait;
    if (act === "enter" && now) now.depth++;
    if (act === "enter" && !now || act === "retake") {
      held.set(monitor, {thread, monitor, from: s.i, depth: wait ? wait.depth : 1});
      run.holds.push(held.get(monitor));
      if (wait) [wait.to, held.wait] = [s.i, undefined];
    }
    if (act === "exit" && !now) run.holds.push({thread, monitor, from: 0, to: s.i});
    if (act === "wait") {
      held.wait = {thread, monitor, from: s.i, depth: now ? now.depth : 1};
      run.waits.push(held.wait);
    }
    if (now && (act === "wait" || act === "exit" && --now.depth === 0)) {
      now.to = s.i;
      held.delete(monitor);
    }
  }

  // ---- what stands out

  const nameOf = (run, monitor) =>
    /^\d+$/.test(monitor) ? `${run.classes.get(monitor) || ""}@${monitor}` : monitor;
  const tag = (run, i, text) => run.notes.set(i, [...(run.notes.get(i) || []), text]);

  // What made an attempt fail: who changed the lock word, and what it read of two moments.
  function tellFailure(run, attempt) {
    const check = run.steps[attempt.to], by = run.steps[check.source], said = [];
    const isLate = by && by.i > attempt.from, number = (i) => run.steps[i].number;
    const join = (kind, from, to, at, label, text) => {
      run.arrows.push({from, to, kind});
      tag(run, at, label);
      if (text) said.push(`${run.steps[at].cell} ${run.steps[at].found} at ${number(at)}, ${text}`);
    };
    if (isLate) join("check", by.i, attempt.to, attempt.to, `by ${by.number}`);
    for (const r of attempt.reads) {
      const s = run.steps[r], writes = run.words.get(s.word).writes, last = s.source;
      const next = writes[upTo(writes, r)];
      if (last > attempt.from) {
        join("new", last, r, r, `of ${number(last)}`, `as ${number(last)} had left it`);
      }
      if (next < attempt.to) {
        join("old", r, next, r, `before ${number(next)}`, `before ${number(next)} wrote it`);
      }
    }
    const left = isLate ? `, left by thread ${by.thread} at ${by.number}` : "";
    const read = said.length ? ` It read ${said.join("; ")}.` : "";
    run.finds.push({i: attempt.to, text: `${check.number}: attempt ${attempt.number} of thread ` +
      `${attempt.thread} on ${nameOf(run, attempt.monitor)} fails: it noted ` +
      `Free(${attempt.noted}), and finds ${check.found}${left}.${read}`});
  }

  // Who is woken by an event, and a lock that it makes fat.
  function tellStep(run, s) {
    const isWoken = (t) => s.does === "wakes" ? s.woken === t
      : s.does === "wakes all from" && Keys.isAmong(t, s.found);
    for (let t = 1; t <= run.lanes; t++) {
      if (!isWoken(t)) continue;
      let i = s.i + 1;
      const waits = (x) => x.thread === t && x.does === "waits on";
      while (i < run.steps.length && !waits(run.steps[i])) i++;
      if (i < run.steps.length) run.arrows.push({from: s.i, to: i, kind: "wake"});
    }
    if (s.does === "makes the lock of") {
      const text = `thread ${s.thread} makes the lock of ${nameOf(run, s.monitor)} fat.`;
      run.finds.push({i: s.i, text: `${s.number}: ${text}`});
    }
  }

  // The monitor that an event notifies on; "" where nothing tells which of several it is.
  function notified(s) {
    if (/^(wakes|looks who waits)/.test(s.does)) return s.monitor;
    if (s.kind !== "notify") return undefined;
    return s.monitor || (s.holds.length === 1 ? s.holds[0] : "");
  }

  // The ends that are no returns: who held the lock, who notified last, and who waits in a ring.
  function tellEnds(run) {
    const waitsFor = new Map(), last = run.steps.length - 1;
    for (const e of run.ends) {
      const s = run.steps.find((x) => x.number === e.number), i = s ? s.i : last;
      let text = `${e.number}: thread ${e.thread} ends: ${e.end}`;
      if (e.heldBy) {
        const hold = s && run.holds.find((h) => h.thread === e.heldBy && h.monitor === e.monitor &&
          h.from < i && (h.open || h.to > i));
        text += `, at the lock of ${nameOf(run, e.monitor)}, held by thread ${e.heldBy}`;
        tag(run, i, `held by thread ${e.heldBy}`);
        if (hold) run.arrows.push({from: i, to: hold.from, kind: "held"});
        if (hold && hold.open) waitsFor.set(e.thread, e.heldBy);
      }
      if (s && e.does === "waits on") text += tellWait(run, e, i);
      run.finds.push({i, text: text + "."});
    }
    tellRings(run, waitsFor);
  }

  function tellWait(run, e, i) {
    const on = (w) => w.thread === e.thread && w.monitor === e.monitor;
    const wait = run.waits.filter(on).pop();
    if (!wait) return "";
    const since = run.steps[wait.from].number;
    const tells = (x) => x.i < i && x.thread !== e.thread && ["", e.monitor].includes(notified(x));
    const told = run.steps.filter(tells).pop();
    let text = `, waiting on ${nameOf(run, e.monitor)} since ${since}`;
    if (!told) text += "; nobody notified";
    else if (notified(told) && told.i < wait.from) {
      text += `; last notified before that, at ${told.number} by thread ${told.thread}`;
    }
    return text;
  }

  function tellRings(run, waitsFor) {
    for (const t of waitsFor.keys()) {
      const ring = [t];
      let next = waitsFor.get(t);
      for (; next && !ring.includes(next); next = waitsFor.get(next)) ring.push(next);
      if (next === t && Math.min(...ring) === t) {
        const text = `Deadlock: thread ${[...ring, t].join(" waits for thread ")}.`;
        run.finds.push({i: run.steps.length - 1, text});
      }
    }
  }

  // ---- rows

  const touches = (s, object) => [s.monitor, s.group].includes(object) ||
    [s.found, s.left].includes(`@${object}`);

  // Rows, and the items that stand in them. A row belongs to one event that is shown by itself. A
  // stretch of a lane that is folded stands beside the rows of other lanes that come behind its
  // first event, or else has a row of its own; a short one goes with the event behind it.
  function layout(run, {object = "", opened = new Set(), every = false} = {}) {
    const rows = [], items = [], itemOf = [], open = [];
    const close = (fold, s) => {
      if (!fold || fold.opened) return [];
      open[fold.lane] = undefined;
      if (s && fold.kind === "fold" && fold.steps.length <= SHORT) return fold.steps;
      fold.row = fold.least;
      if (fold.least === rows.length) rows.push(fold.from);
      fold.rowTo = rows.length - 1;
      items.push(fold);
      return [];
    };
    const alone = (s, kind, before, fold) => {
      const at = rows.length, from = before[0];
      const item = {lane: s.thread, steps: [...before, s.i], shown: s, kind, row: at, rowTo: at,
        fold, from};
      rows.push(s.i);
      items.push(item);
      for (const i of item.steps) itemOf[i] = item;
    };
    for (const s of run.steps) {
      const isShown = ["begin", "end", "stop", "part"].includes(s.kind);
      const isOff = object && !isShown && !touches(s, object);
      const type = every ? "" : s.kind === "turn" && !isOff ? `turns at ${s.monitor}`
        : s.kind === "local" || isOff ? "local" : "";
      let fold = open[s.thread];
      if (s.part) open.forEach((one) => close(one));
      if (!type || !fold || fold.type !== type) {
        const before = close(fold, !type && s);
        open[s.thread] = undefined;
        if (!type) {
          alone(s, every && s.kind === "local" ? "fold" : s.kind, before);
          continue;
        }
        fold = {lane: s.thread, type, kind: type === "local" ? "fold" : "turns", from: s.i,
          steps: [], shown: s, least: rows.length, opened: opened.has(s.i)};
        open[s.thread] = fold;
      }
      if (fold.opened) {
        alone(s, "fold", [], fold);
        continue;
      }
      fold.steps.push(s.i);
      itemOf[s.i] = fold;
    }
    open.forEach((fold) => close(fold));
    items.sort((a, b) => a.row - b.row || a.shown.i - b.shown.i);
    items.forEach((item, at) => { item.at = at; });
    return {rows, items, itemOf};
  }

  // What each word holds behind an event, by what it belongs to. One that is accessed later holds
  // what is found then.
  function stateAt(run, i) {
    const groups = new Map();
    for (const [name, word] of run.words) {
      if (word.cell === "header" || (run.born.get(word.group) || 0) > i) continue;
      const by = word.writes[upTo(word.writes, i) - 1];
      const group = groups.get(word.group) || {cells: [], touched: -1};
      groups.set(word.group, group);
      group.cells.push({cell: word.cell, by, now: run.steps[i].word === name, name,
        value: by === undefined ? word.first : run.steps[by].left});
      if (word.at <= i) group.touched = Math.max(group.touched, word.at, by || 0);
    }
    return groups;
  }

  return {upTo, read, layout, stateAt, nameOf, notified};
})();
