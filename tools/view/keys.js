"use strict";
// What an event of `--what run --json` says, by the members of its object. They are read here and
// nowhere else.
const Keys = (() => {
  // A monitor or an object is named by its number, a class as `class NAME`.
  function monitorOf(o) {
    if ("monitor_class" in o) return `class ${o.monitor_class}`;
    return "monitor" in o ? String(o.monitor) : undefined;
  }

  // In words, where the event is no instruction.
  function saidOf(o) {
    if ("throws" in o) return `throws ${o.throws}`;
    return "ends" in o ? `ends: ${o.ends}` : o.does || "";
  }

  // What is done, to which monitor, and who is woken.
  const doingOf = (o) => ({does: saidOf(o), monitor: monitorOf(o), woken: o.woken});

  // What a word belongs to, which word of that it is, and the class that its object then has.
  function placeOf(a) {
    if ("object" in a && "field" in a) return [String(a.object), a.field, a.class];
    if ("field" in a) return [`class ${a.class}`, a.field];
    if ("index" in a) return [String(a.object), `[${a.index}]`, "int[]"];
    if ("object" in a) return [String(a.object), a.word];
    if ("record" in a) return [`record ${a.record}`, a.word];
    if (monitorOf(a) !== undefined) return [monitorOf(a), "lock"];
    return ["counters", a.word];
  }

  // `left` is what stands there behind the event, `stores` whether it is no load.
  function accessOf(a) {
    const [group, cell, known] = placeOf(a), stores = "left" in a;
    const found = String(a.found), left = String(stores ? a.left : a.found);
    // a header has the class of its object, or an array with its length
    const isNamed = cell === "header" && left !== "none";
    const owner = isNamed ? left.replace(/\[\d+\]$/, "[]") : known;
    return {group, cell, owner, word: `${group} ${cell}`, found, left, stores};
  }

  // Whether a thread is among those that wait, by what was found in the waiting bits.
  const isAmong = (thread, found) => found.split(/[^\d]+/).includes(String(thread));

  function spotOf(o) {
    if (!("pc" in o)) return undefined;
    const outer = o.class.replace(/^.*\//, "").replace(/\$.*/, "");
    return {class: o.class, method: o.method, pc: o.pc, instruction: o.instruction,
      file: o.source || `${outer}.java`, line: o.line};
  }

  // An event, or the begin of a part, whose thread is -1.
  function eventOf(o) {
    const number = o.number;
    if (o.what === "part") return {number, thread: -1, part: o.begins, does: "", acts: []};
    const fate = ["begins", "fails", "finishes"].find((each) => `attempt_${each}` in o);
    return {number, thread: o.thread, ...doingOf(o), spot: spotOf(o),
      inAttempt: o.in_attempt, fate, attempt: fate && o[`attempt_${fate}`], noted: o.noted,
      access: o.access && accessOf(o.access), prints: o.prints,
      begins: o.begins && `${o.begins.class}.${o.begins.method}`,
      throws: "throws" in o, end: o.comes_to_its_end || o.ends,
      isLast: "ends" in o, acts: o.plain || [], between: o.between, owed: o.owed};
  }

  // An end that is no return, and the event by which it came.
  const endOf = (o) => ({number: o.number, thread: o.thread, end: o.end, heldBy: o.held_by,
    ...doingOf(o)});

  return {eventOf, endOf, isAmong};
})();
