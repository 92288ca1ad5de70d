// The commands of the program as the page asks them, and sessions of its debugger. Each call begins anew: a session goes to its place by
// `step`, and back from there by `back`.
"use strict";

const LENGTHS = Array.from({ length: 16 }, (_, n) => 128 * (n + 1));
const STEPS_A_LINE = 1000000;
const MOST_STEPS = 1000000;

class Program {
  constructor(svec) {
    this.svec = svec;
    this.calls = 0;
  }

  call(words, files, input, wanted) {
    this.calls++;
    return this.svec.call(words, files, input, wanted);
  }

  check(kernel) {
    return this.call(["check", "k"], { k: kernel });
  }

  compile(kernel) {
    return this.call(["compile", "k", "f"], { k: kernel }, "", "f");
  }

  list(file) {
    return this.call(["list", "f"], { f: file }).out;
  }

  // The words of a command with its options and the arguments.
  static words(command, options, name, args) {
    const words = [command];
    for (const [option, value] of Object.entries(options)) if (value !== undefined && value !== null) words.push(`--${option}`, String(value));
    return [...words, name, "--", ...args];
  }

  run(file, map, args, vl, more = {}) {
    const came = this.call(Program.words("run", { vl, steps: MOST_STEPS, map: "m", ...more }, "f", args), { f: file, m: map });
    return { vl, ...came, ...ended(came.out) };
  }

  evaluated(kernel, map, args, steps = MOST_STEPS) {
    const came = this.call(Program.words("eval", { steps, map: "m" }, "k", args), { k: kernel, m: map });
    const count = /^iterations (\d+)/m.exec(came.out);
    return { ...came, line: came.out.split("\n")[0], iterations: count ? Number(count[1]) : null };
  }

  debug(file, map, args, vl, lines) {
    return this.call(Program.words("debug", { vl, map: "m" }, "f", args), { f: file, m: map }, lines.join("\n") + "\n");
  }
}

// A program whose calls are kept, by their words, texts and input; and one that knows no others (of one kernel's file, so its bytes count
// for nothing).
class Recorder extends Program {
  constructor(svec) {
    super(svec);
    this.kept = {};
  }

  static key(words, files, input, wanted) {
    return JSON.stringify([words, Object.entries(files).map(([name, it]) => [name, typeof it === "string" ? it : ""]), input, wanted]);
  }

  call(words, files, input = "", wanted = "") {
    const came = super.call(words, files, input, wanted);
    this.kept[Recorder.key(words, files, input, wanted)] = came.file ? { ...came, file: [...came.file] } : came;
    return came;
  }
}

class Replay extends Program {
  constructor(kept) {
    super(null);
    this.kept = kept;
    this.isRecorded = true;
  }

  call(words, files, input = "", wanted = "") {
    this.calls++;
    const came = this.kept[Recorder.key(words, files, input, wanted)];
    if (!came) throw new Error("this call is not in the recording");
    return came.file ? { ...came, file: Uint8Array.from(came.file) } : came;
  }
}

// The first lines of what `run` prints.
function ended(out) {
  const [line, steps] = out.split("\n");
  const count = /^steps (\d+)/.exec(steps || "");
  const result = /^result (0x[0-9a-f]+)/.exec(line || ""), stop = /^stop (\w+) pc (0x[0-9a-f]+)(?: at (0x[0-9a-f]+))?/.exec(line || "");
  const spent = /^spent pc (0x[0-9a-f]+)/.exec(line || "");
  return { line, steps: count ? Number(count[1]) : null, result: result && result[1], stop: stop && { kind: stop[1], pc: parseInt(stop[2], 16), at: stop[3] }, isSpent: !!spent, pc: spent ? parseInt(spent[1], 16) : null };
}

function stepLines(steps) {
  const lines = [];
  for (let left = steps; left > 0; left -= STEPS_A_LINE) lines.push(`step ${Math.min(left, STEPS_A_LINE)}`);
  return lines;
}

// Reads the answers of a session one after another.
class Answers {
  constructor(out) {
    this.lines = out.split("\n");
    this.at = 0;
  }

  line() {
    return this.lines[this.at++] || "";
  }

  // What `step`, `go` or `back` answers.
  stand() {
    const line = this.line(), at = /^at (0x[0-9a-f]+) steps (\d+)/.exec(line);
    if (at) return { pc: parseInt(at[1], 16), steps: Number(at[2]), line };
    if (line === "too far") return { line };
    const steps = /^steps (\d+)/.exec(this.line());
    return { isEnd: true, steps: steps ? Number(steps[1]) : null, line };
  }

  stands(lines) {
    let last = null;
    for (let n = 0; n < lines; n++) last = this.stand();
    return last;
  }

  // The registers that are asked for, and memory; others stay 0 or empty.
  state(windows, used) {
    const value = () => this.line().split(" ")[1] || "", state = { x: Array(31).fill(0n), z: [], p: [], mem: [], ffr: "" };
    state.pc = parseInt(value(), 16);
    state.nzcv = value();
    for (const n of used.x) state.x[n] = BigInt(value() || 0);
    for (const n of used.z) state.z[n] = value();
    for (const n of used.p) state.p[n] = value();
    if (used.ffr) state.ffr = value();
    for (const { at, length } of windows) {
      const bytes = [];
      while (bytes.length < length) bytes.push(...this.line().split(" ").slice(1));
      state.mem.push({ at, bytes });
    }
    return state;
  }
}

function stateLines(windows, used) {
  const lines = ["pc", "nzcv"];
  for (const kind of ["x", "z", "p"]) for (const n of used[kind]) lines.push(`${kind} ${n}`);
  if (used.ffr) lines.push("ffr");
  for (const { at, length } of windows) lines.push(`mem ${at} ${length}`);
  return lines;
}

// The registers that some code names, with those of so many arguments and the count of iterations.
function usedBy(rows, params) {
  const used = { x: new Set([9]), z: new Set(), p: new Set(), ffr: rows.some((it) => /ffr/.test(it.text)) };
  for (let n = 0; n < params; n++) used.x.add(n);
  for (const row of rows) {
    const names = namesIn(row.text);
    for (const kind of ["x", "z", "p"]) names[kind].forEach((n) => n < 31 + (kind === "z") && used[kind].add(n));
  }
  const sorted = (set) => [...set].sort((a, b) => a - b);
  return { x: sorted(used.x), z: sorted(used.z), p: sorted(used.p), ffr: used.ffr };
}

// The state after so many steps, and that before the last of them. It is reached from the start, or from `from` steps by `back`.
function statesAt(program, run, steps, windows, used, from = null) {
  if (from !== null && from > steps) return statesBack(program, run, steps, windows, used, from);
  const state = stateLines(windows, used);
  if (steps === 0) {
    const answers = new Answers(program.debug(run.file, run.map, run.args, run.vl, state).out);
    return { before: null, now: answers.state(windows, used), stood: { steps: 0 }, by: "start" };
  }
  const made = stepLines(steps - 1), answers = new Answers(program.debug(run.file, run.map, run.args, run.vl, [...made, ...state, "step 1", ...state]).out);
  answers.stands(made.length);
  const before = answers.state(windows, used), stood = answers.stand();
  return { before, now: answers.state(windows, used), stood, by: from === null ? `step ${steps}` : `step ${steps - from}` };
}

function statesBack(program, run, steps, windows, used, from) {
  const state = stateLines(windows, used), made = stepLines(from), lines = [...made, `back ${from - steps}`, ...state];
  if (steps > 0) lines.push("back 1", ...state);
  const answers = new Answers(program.debug(run.file, run.map, run.args, run.vl, lines).out);
  answers.stands(made.length);
  const stood = answers.stand();
  if (stood.line === "too far") return statesAt(program, run, steps, windows, used);
  const now = answers.state(windows, used);
  if (steps > 0) answers.stand();
  return { now, before: steps > 0 ? answers.state(windows, used) : null, stood, by: `back ${from - steps}` };
}

// Where `go` stands still: at a breakpoint, or where the program has ended.
function wentFrom(program, run, steps, breaks) {
  const lines = [...breaks.map((it) => `break ${it}`), ...stepLines(steps), `go ${MOST_STEPS}`];
  const answers = new Answers(program.debug(run.file, run.map, run.args, run.vl, lines).out);
  breaks.forEach(() => answers.line());
  answers.stands(stepLines(steps).length);
  return answers.stand();
}

// The places of the instructions of a run's first steps.
function placesOf(program, run, most) {
  const places = [], answers = new Answers(program.debug(run.file, run.map, run.args, run.vl, ["pc", ...Array(most).fill("step 1")]).out);
  let pc = parseInt(answers.line().split(" ")[1], 16);
  for (let n = 0; n < most; n++) {
    const stood = answers.stand();
    places.push(pc);
    if (stood.isEnd) break;
    pc = stood.pc;
  }
  return places;
}

// The same with a stop list, for which the debugger has no option: `run` with one step more each time says where it stands.
function placesEarly(program, run, every, most) {
  const places = [];
  for (let steps = 0; steps < most; steps++) {
    const came = program.run(run.file, run.map, run.args, run.vl, { steps, suppress: every });
    if (!came.isSpent) break;
    places.push(came.pc);
  }
  return places;
}

// The registers to ask for before an instruction, so that what it accesses is known; of WHILELO those that it counts by.
function wantsOf(text) {
  const names = namesIn(text), wants = [];
  if (!/^(ld|st|whilelo)/.test(text)) return wants;
  for (const x of names.x) if (x < 31) wants.push(["x", x]);
  if (/^while/.test(text)) return wants;
  for (const p of names.p) wants.push(["p", p]);
  for (const z of names.z) if (text.includes(`, z${z}.d`)) wants.push(["z", z]);
  return wants;
}

// Each step of a run, at most so many: the place of its instruction, what it accesses, and from where up to where a WHILELO counts.
function recorded(program, run, rows, most) {
  const byPlace = new Map(rows.map((it) => [it.at, it])), places = placesOf(program, run, most), lines = [];
  const asked = places.map((place) => wantsOf((byPlace.get(place) || { text: "" }).text));
  asked.forEach((wants) => lines.push(...wants.map((it) => it.join(" ")), "step 1"));
  const answers = new Answers(program.debug(run.file, run.map, run.args, run.vl, lines).out);
  return places.map((pc, n) => {
    const row = byPlace.get(pc) || null, state = { x: [], p: [], z: [] };
    for (const [kind, number] of asked[n]) {
      const value = answers.line().split(" ")[1];
      state[kind][number] = kind === "x" ? BigInt(value) : value;
    }
    answers.stand();
    return { pc, row, access: row && accessOf(row.text, state), counts: row && countsOf(row.text, state) };
  });
}

// Of a WHILELO: its predicate and the letter of its elements, the first number, and the one that stays outside.
function countsOf(text, state) {
  const match = /^whilelo p(\d+)\.([bhsd]), (x\d+|xzr), (x\d+)$/.exec(text);
  return match && { p: Number(match[1]), letter: match[2], first: numberOf(state, match[3]), bound: numberOf(state, match[4]), isOne: match[3] === "xzr" };
}

if (typeof module !== "undefined") {
  const { namesIn, accessOf, numberOf } = require("./listing.js");
  Object.assign(globalThis, { namesIn, accessOf, numberOf });
  module.exports = { Program, Recorder, Answers, statesAt, wentFrom, placesOf, placesEarly, recorded, usedBy, ended, LENGTHS, MOST_STEPS };
}
