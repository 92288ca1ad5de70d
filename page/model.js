// What the page shows, without how: a kernel, its code, a call of it and the machine at a step. All of it is asked of the program; this file
// knows of no document, so that it also serves the recording of an example (page/record).
"use strict";

const RECORDED = 2000;
const QUICK = 20000;
const EARLY = 400;
const CELLS = 128;
const bytesOf = (type) => Number(type.slice(1)) / 8;
const hex = (n) => "0x" + BigInt(n).toString(16);

// A number as the program takes it: decimal, hexadecimal or negative, in 64 bits; or null.
function number(text) {
  const value = /^-\d+$/.test(text) ? -BigInt(text.slice(1)) : /^(0x[0-9a-fA-F]+|\d+)$/.test(text) ? BigInt(text) : null;
  return value === null || value >= 1n << 64n || value < -(1n << 63n) ? null : BigInt.asUintN(64, value);
}

class Model {
  constructor(program) {
    Object.assign(this, { program, vl: 128, args: [], map: "", every: null, breaks: new Set(), at: 0, rows: [], byPlace: new Map() });
    this.kernel = this.run = this.film = this.fault = null;
  }

  // Reads a kernel: its class and its code, or the fault that it is refused for.
  read(text) {
    const checked = this.program.check(text);
    this.fault = this.told = null;
    if (checked.status !== 0) return (this.fault = faultOf(text, checked.err, this.program));
    const [canonical, size, kind, need] = checked.out.split("\n"), count = (it) => Number((new RegExp(`\\b${it} (\\d+)`).exec(need) || [0, 0])[1]);
    this.told = { canonical, size: size.replace("size ", ""), class: classOf(text, kind), z: count("z"), p: count("p"), x: count("x") };
    const compiled = this.program.compile(text);
    if (compiled.status !== 0) return (this.fault = faultOf(text, compiled.err, this.program));
    this.kernel = new Items(text);
    this.class = this.told.class;
    this.file = compiled.file;
    this.text = text;
    this.rows = linked(parted(rowsOf(this.program.list(this.file)), this.class.kind === "vector"), this.kernel);
    this.byPlace = new Map(this.rows.map((it) => [it.at, it]));
    this.used = usedBy(this.rows, this.kernel.params.length);
    this.breaks = new Set([...this.breaks].filter((it) => this.byPlace.has(it)));
    if (this.args.length !== this.kernel.params.length) this.args = this.defaults();
    return null;
  }

  defaults() {
    let next = 0x10000;
    return this.kernel.params.map((it) => {
      if (it.isArray) return hex((next += 0x10000) - 0x10000);
      return it.name === this.kernel.bound ? "16" : "3";
    });
  }

  argument(name) {
    return number(this.args[this.kernel.params.findIndex((it) => it.name === name)] || "");
  }

  // Begins a call: what is wrong with its words, or null. Where the run is short it is done, and else it is `isLong`.
  begin() {
    this.run = this.film = this.lengths = this.meaning = null;
    const bad = this.kernel.params.find((it, n) => number(this.args[n]) === null);
    if (bad) return `${bad.name} is no number of 64 bits.`;
    const run = { file: this.file, map: this.map, args: this.args.slice(), vl: this.vl };
    const bound = this.kernel.params.findIndex((it) => it.name === this.kernel.bound);
    this.count = bound >= 0 ? number(run.args[bound]) : 0n;
    const first = this.program.run(run.file, run.map, run.args, run.vl, { steps: QUICK });
    const refused = first.status > 6 || first.status === 4 || first.status === 2;
    if (refused) return first.err.trim() || `status ${first.status}`;
    this.run = run;
    this.isLong = first.isSpent;
    if (!this.isLong) this.take(this.runs(this.file, this.map, this.run.args, this.text));
    return null;
  }

  // The runs at the sixteen lengths, and the kernel's own loop.
  runs(file, map, args, text) {
    return { lengths: LENGTHS.map((vl) => this.program.run(file, map, args, vl)), meaning: this.program.evaluated(text, map, args) };
  }

  take({ lengths, meaning }) {
    this.lengths = lengths;
    this.meaning = meaning;
  }

  // The run at the vector length: its end, and its first steps one by one.
  readLength() {
    this.run.vl = this.vl;
    this.ran = this.lengths[this.vl / 128 - 1];
    this.film = recorded(this.program, this.run, this.rows, Math.min(this.ran.steps, RECORDED));
    this.rows.forEach((it) => (it.hits = 0));
    this.film.forEach((it) => it.row && it.row.hits++);
    this.windows = this.windowsOf();
    this.early = this.every ? this.readEarly() : null;
    this.at = this.at === "lanes" ? this.lastLanes() : Math.min(this.at || 0, this.ran.steps);
  }

  // The step after which P0 was last given lanes, or the start.
  lastLanes() {
    for (let n = this.film.length - 1; n >= 0; n--) if (this.film[n].counts && this.film[n].counts.bound > this.film[n].counts.first) return n + 1;
    return 0;
  }

  // The same run where loads stop early.
  readEarly() {
    const ran = this.program.run(this.file, this.map, this.run.args, this.vl, { suppress: this.every });
    const places = ran.steps <= EARLY ? placesEarly(this.program, this.run, this.every, ran.steps) : null;
    return { ran, places };
  }

  hasFirstFault() {
    return this.rows.some((it) => /^ld(ff|nf)1/.test(it.text));
  }

  // Whether `run` and the kernel's own loop come to the same; null where neither ended.
  agrees() {
    const { ran, meaning } = this;
    if (ran.isSpent) return null;
    return ran.result ? meaning.line === ran.line : ran.stop ? meaning.line === "fault" : false;
  }

  // The part of memory that is shown of each array: its first elements, or those about an access.
  windowsOf() {
    const all = [];
    this.kernel.params.forEach((it, n) => {
      if (!it.isArray) return;
      const size = bytesOf(it.type), at = number(this.run.args[n]), touched = this.film.flatMap((step) => (step.access && step.row.array === it.name ? step.access.places : []));
      let count = this.count < BigInt(CELLS) ? Number(this.count) : CELLS;
      if (touched.length) {
        const last = touched.reduce((a, b) => (a > b ? a : b)), reach = last >= at ? Number((last - at) / BigInt(size)) + 1 : 0;
        count = Math.max(Math.min(count, Math.max(reach + 4, 16)), Math.min(reach, CELLS));
      } else count = Math.min(count, 16);
      const room = Number((1n << 64n) - at < 4096n ? (1n << 64n) - at : 4096n), length = Math.min(Math.max(1, count) * size, room);
      all.push({ at, length, name: it.name, type: it.type, size, count: Math.floor(length / size) });
    });
    return all.filter((it) => it.count > 0);
  }

  // Goes to a step: the states before and after the last one, the instruction that was done, and the next one.
  stand(steps, from = null) {
    this.states = statesAt(this.program, this.run, steps, this.windows, this.used, this.program.isRecorded ? null : from);
    this.at = steps;
    this.last = steps > 0 ? this.byPlace.get(this.states.before.pc) || null : null;
    this.access = this.last ? accessOf(this.last.text, this.states.before) : null;
    this.next = this.states.stood.isEnd ? null : this.byPlace.get(this.states.now.pc) || null;
    this.isEnd = !!this.states.stood.isEnd;
  }

  // (of the recorded example)
  nextBreak() {
    const at = this.film.findIndex((it, n) => n > this.at && this.breaks.has(it.pc));
    return at < 0 ? this.ran.steps : at;
  }

  goOn() {
    if (this.program.isRecorded) return { steps: this.nextBreak() };
    return wentFrom(this.program, this.run, this.at, [...this.breaks]);
  }

  // The WHILELO that P0 comes from, as it counted.
  countsNow() {
    for (let n = Math.min(this.at, this.film.length) - 1; n >= 0; n--) if (this.film[n].counts && this.film[n].counts.p === 0) return { ...this.film[n].counts, since: n };
    return null;
  }

  // What each register holds, as far as the steps before say: the text of the kernel that was last put there.
  held() {
    const held = new Map(), { params } = this.kernel;
    this.film.slice(0, this.at).forEach(({ row }) => {
      const into = row && /^(?!st)\w+ \{?([zxwp])(\d+)/.exec(row.text);
      if (!into || /^(subs|ands|adds) xzr/.test(row.text)) return;
      const name = (into[1] === "w" ? "x" : into[1]) + into[2], item = row.sum || row.item, from = /^dup z\d+\.[bhsd], w?x?(\d+)$/.exec(row.text);
      if (item) held.set(name, item.kind === "update" ? item.name : this.text.slice(item.from, item.to));
      else if (from) held.set(name, params[from[1]] ? params[from[1]].name : held.get(`x${from[1]}`));
      else if (/^whilelo/.test(row.text)) held.set(name, /xzr/.test(row.text) ? "one lane" : `i < ${this.kernel.bound}`);
      else if (/^ptrue/.test(row.text)) held.set(name, "all lanes");
      else if (/^subs x8,/.test(row.text)) held.set(name, "last i of a turn");
      else held.set(name, /^movz x\d+, #\d+$/.test(row.text) ? /\d+$/.exec(row.text)[0] : undefined);
    });
    held.set("x9", this.at && this.last && this.last.part === "scalar" ? `i \u2212 ${this.kernel.bound}` : this.kernel.index || undefined);
    return held;
  }

  // The steps of each part in a run, where it is short.
  partSteps(vl, steps) {
    if (steps === null || steps > RECORDED) return null;
    const counts = {};
    placesOf(this.program, { ...this.run, vl }, steps).forEach((at) => {
      const row = this.byPlace.get(at), name = row ? row.part : "entry";
      counts[name] = (counts[name] || 0) + 1;
    });
    return counts;
  }

  // The same kernel over long arrays, far from each other and zero, at the sixteen lengths.
  longRuns() {
    const count = 4096, map = [], args = this.kernel.params.map((it, n) => {
      if (!it.isArray) return it.name === this.kernel.bound ? String(count) : this.run.args[n];
      const at = 0x1000000 * (n + 1);
      map.push(`map ${hex(at - 0x4000)} ${8 + Math.ceil((count * bytesOf(it.type)) / 4096)} rw`);
      return hex(at);
    });
    return this.runs(this.file, map.join("\n") + "\n", args, this.text);
  }

  // What the plot of the vector lengths shows: of this call all steps, those an iteration or those a chunk, or of a long call an iteration.
  cost(kind) {
    const isLong = kind === "long", from = isLong ? this.longRuns() : this, iterations = from.meaning.iterations || 0;
    const steps = from.lengths.map((it) => it.steps || 0), width = this.class.width || 0;
    const over = LENGTHS.map((vl) => (kind === "call" || !iterations ? 1 : kind === "chunk" && width ? Math.ceil((iterations * width) / vl) : iterations));
    const unit = kind === "call" || !iterations ? "steps" : kind === "chunk" && width ? "instructions a chunk" : "instructions an iteration";
    return { kind, unit, steps, over, iterations, parts: steps.map((it, n) => (isLong ? null : this.partSteps(LENGTHS[n], it))) };
  }

  // Pages for the arrays of the kernel at their addresses, with small numbers in them.
  filledMap() {
    const lines = [], pages = new Map(), stored = new Set(this.kernel.items.filter((it) => it.kind === "store").map((it) => it.name));
    const count = Math.max(1, Math.min(Number(this.argument(this.kernel.bound) ?? 16n), 512));
    this.kernel.params.forEach((it, n) => {
      const at = number(this.args[n]);
      if (!it.isArray || at === null) return;
      const size = bytesOf(it.type), end = at + BigInt(count * size);
      for (let page = at >> 12n; page <= (end - 1n) >> 12n; page++) pages.set(page, pages.get(page) || stored.has(it.name));
      const element = (value) => Array.from({ length: size }, (_, b) => Math.floor(value / 256 ** b) % 256).map((b) => b.toString(16).padStart(2, "0")).join("");
      lines.push(`set ${hex(at)} ${Array.from({ length: Math.min(count, 256) }, (_, k) => element(k + 1 + 10 * n)).join("")}`);
    });
    const maps = [...pages].sort((a, b) => (a[0] < b[0] ? -1 : 1)).map(([page, writes]) => `map ${hex(page << 12n)} 1 ${writes ? "rw" : "r"}`);
    return [...maps, ...lines].join("\n") + "\n";
  }
}

if (typeof module !== "undefined") {
  Object.assign(globalThis, require("./listing.js"), require("./kernel.js"), require("./faults.js"), require("./session.js"));
  module.exports = { Model, number, hex, RECORDED };
}
