// A listing in parts, and which part of the kernel an instruction does, as far as both can be known from the words alone. Neither is
// proved: they are read off the form in which code is laid.
"use strict";

// The parts in the order of their colours, with what each is.
const PARTS = {
  entry: ["Arguments", "each wrapped to its type"],
  setup: ["Scalar start", "what the scalar loop holds throughout"],
  scalar: ["Scalar loop", "one iteration at a time"],
  exit: ["End", "the returned value, and the call of exit"],
  guard: ["Guard", "do the arrays lie apart?"],
  start: ["Vector start", "what chunks hold; how many there are"],
  turn: ["Turn", "four whole chunks, every lane on"],
  chunk: ["Chunk", "the iterations that are left, a lane each"],
  single: ["One by itself", "where no lane came through"],
  fold: ["Fold", "lanes into accumulators, and out"],
};

const VECTOR_ACCESS = /^(ld1|ldff1|ldnf1|st1)(s?)([bhwd]) \{z(\d+)\.([bhsd])\}, p(\d+)(?:\/z)?, \[(x\d+|sp|xzr)(?:, (x\d+|xzr|z\d+\.d|#-?\d+, mul vl|#-?\d+)(?:, lsl #(\d))?)?\]$/;
const SCALAR_ACCESS = /^(ldr|str)(s?)([bhw]?) ([xw])(?:\d+|zr), \[(x\d+|sp)(?:, (?:#(\d+)|(x\d+|xzr)(?:, lsl #(\d))?))?\]$/;
const BYTES = { b: 1, h: 2, w: 4, d: 8, s: 4 };

function rowsOf(listing) {
  return listing.split("\n").filter(Boolean).map((line, n) => {
    const [place, word, ...text] = line.split(" ");
    return { n, at: parseInt(place, 16), word, text: text.join(" ") };
  });
}

function isVectorText(text) {
  return /\b[zp]\d+\b|\b[zp]\d+\.|^(whilelo|ptrue|cnt|inc[bhwdp]|index|dup|ptest|setffr|rdffr)/.test(text);
}

// Where a branch leads, or null.
function targetOf(row) {
  const match = /^(?:b|b\.\w+|cbn?z [xw]\d+,|tbn?z [xw]\d+, #\d+,) #(-?\d+)$/.exec(row.text);
  return match ? row.at + Number(match[1]) : null;
}

// The loops among some rows, in their order: the first row and the row after the last of each place that is branched back to.
function loopsOf(rows, byPlace, from, to) {
  const ends = new Map();
  for (const row of rows.slice(from, to)) if (row.target !== null && row.target <= row.at && row.target >= rows[from].at) ends.set(row.target, row.n + 1);
  return [...ends].map(([head, end]) => ({ head: byPlace.get(head).n, end })).sort((a, b) => a.head - b.head);
}

// Gives each row its part.
function parted(rows, isVector) {
  const byPlace = new Map(rows.map((it) => [it.at, it]));
  rows.forEach((it) => (it.target = targetOf(it)));
  const jump = isVector ? rows.find((it) => /^b #/.test(it.text) && it.target > it.at && isVectorAfter(rows, byPlace.get(it.target))) : null;
  const vector = jump ? byPlace.get(jump.target).n : rows.length, scalar = jump ? jump.n + 1 : 0;
  const set = (from, to, name) => rows.slice(from, to).forEach((it) => (it.part = name));
  set(0, scalar, "entry");
  const [loop] = loopsOf(rows, byPlace, scalar, vector);
  if (loop) set(scalar, loop.head, "setup"), set(loop.head, loop.end, "scalar"), set(loop.end, vector, "exit");
  else set(scalar, vector, "exit");
  if (jump) vectorParts(rows, byPlace, vector, set);
  return rows;
}

// The parts of the vector code: a loop without a break has turns of four chunks before its loop of chunks.
function vectorParts(rows, byPlace, vector, set) {
  const first = rows.findIndex((it) => it.n >= vector && isVectorText(it.text)), loops = loopsOf(rows, byPlace, first, rows.length);
  const chunk = loops[loops.length - 1], turn = loops.length > 1 ? loops[0] : null;
  set(vector, first, "guard");
  if (!chunk) return set(first, rows.length, "start");
  set(first, (turn || chunk).head, "start");
  if (turn) set(turn.head, chunk.head, "turn");
  set(chunk.head, chunk.end, "chunk");
  set(chunk.end, rows.length, "fold");
  // a loop with a break goes back from more than one place: after the first, an iteration is done by itself
  const again = rows.slice(chunk.head, chunk.end).filter((it) => it.target === rows[chunk.head].at);
  if (again.length > 1) set(again[0].n + 1, chunk.end, "single");
}

function isVectorAfter(rows, row) {
  return row !== undefined && rows.slice(row.n).some((it) => isVectorText(it.text));
}

const DOES = [
  [/^(ld1|ldff1|ldnf1|ldr)/, ["read"]],
  [/^(st1|str)/, ["store"]],
  [/^madd\b/, ["*", "+"]],
  [/^(mul|mla)\b/, ["*"]],
  [/^subs xzr/, ["==", "!=", "<", "<=", ">", ">="]],
  [/^(sub|subr|subs)\b/, ["-", "unary-", "+"]],
  [/^(add|adds)\b/, ["+", "+=", "-"]],
  [/^(and|ands)\b/, ["&", "&=", "as"]],
  [/^(orr|orn)\b/, ["|", "|="]],
  [/^(eor)\b/, ["^", "^="]],
  [/^(lsl)\b/, ["<<"]],
  [/^(lsr|asr)\b/, [">>"]],
  [/^(cmp\w*|ccmp|tst)\b/, ["==", "!=", "<", "<=", ">", ">="]],
  [/^(smin|umin)\b/, ["min", "min="]],
  [/^(smax|umax)\b/, ["max", "max="]],
  [/^(abs)\b/, ["abs"]],
  [/^(sel|csel)\b/, ["select", "min", "max", "min=", "max=", "abs"]],
  [/^(sxt[bhw]|uxt[bhw])\b/, ["as"]],
  [/^(neg)\b/, ["unary-"]],
  [/^(not|mvn)\b/, ["unary~"]],
  [/^(brkb|brka|ptest)/, ["break"]],
  [/^cbn?z/, ["==", "!=", "break"]],
];

function baseOf(text) {
  const match = VECTOR_ACCESS.exec(text) || null;
  if (match) return match[7];
  const scalar = SCALAR_ACCESS.exec(text);
  return scalar ? scalar[5] : null;
}

// Items that may have no word of their own.
const SILENT = new Set("literal name let as mark || && unary! then else end".split(" "));

// The argument whose register an access starts from.
function paramOf(base, kernel) {
  const register = base && /^x(\d+)$/.exec(base), param = register && kernel.params[Number(register[1])];
  return param && param.isArray ? param : null;
}

// Whether an instruction that does such things may do an item.
function fitsItem(does, part, base, param) {
  const register = base && /^x(\d+)$/.exec(base);
  return (it) => {
    if (it.kind === "update") return does.includes(it.sign);
    if (!does.includes(it.kind)) return false;
    if (it.kind !== "read" && it.kind !== "store") return true;
    // (the scalar code holds the address of an element at an offset in a register of its own, after those of the arguments)
    if (part === "scalar" && register && Number(register[1]) < 8 !== !it.offset) return false;
    return !param || it.name === param.name;
  };
}

// The place after the sum that a product is added to, where it is added by the same instruction.
function pastSum(body, next) {
  while (next < body.length && (body[next].kind === "+" || (SILENT.has(body[next].kind) && body.slice(next).some((it) => it.kind === "+")))) if (body[next++].kind === "+") break;
  return next;
}

// Goes over the instructions of a loop and the items of its body side by side, and ties each instruction to the next item that it may do.
// What does no item goes on with the one before it, as a sum that is wrapped.
function tied(rows, body, part, kernel) {
  let next = 0, last = null;
  for (const row of rows) {
    // (a turn does the items four times)
    if (/^incp x9,/.test(row.text)) (next = 0), (last = null);
    const found = DOES.find(([form]) => form.test(row.text)), does = found && found[1], isValue = part === "scalar" || /\bz\d|^brk|^ptest/.test(row.text);
    if (row.target !== null && !(does && does.includes("break"))) last = null;
    // (x9 counts iterations)
    if (!does || !isValue || /^\w+ x9,|^cbn?z x9,/.test(row.text)) continue;
    const base = baseOf(row.text), param = paramOf(base, kernel), fits = fitsItem(does, part, base, param);
    let at = next;
    // an access to a known array is sure enough to go past what has not been found
    while (at < body.length && !fits(body[at]) && (param || (base && part === "scalar") || SILENT.has(body[at].kind))) at++;
    if (at < body.length && fits(body[at])) {
      (row.item = last = body[at]), (next = at + 1);
      if (/^madd/.test(row.text) && !/zr$/.test(row.text)) (next = pastSum(body, next)), (row.sum = body[next - 1]);
    } else if (last) (row.item = last), (row.isMore = true);
  }
}

function linked(rows, kernel) {
  const body = kernel.items.filter((it) => it.inLoop);
  for (const part of ["turn", "chunk", "single", "scalar"]) tied(rows.filter((it) => it.part === part), body, part, kernel);
  for (const row of rows) {
    const base = baseOf(row.text), param = paramOf(base, kernel);
    if (param) row.array = param.name;
    else if (base && row.item && ["read", "store"].includes(row.item.kind)) row.array = row.item.name;
  }
  return rows;
}

// What an instruction is about to access, by the registers before it: the elements' addresses, their size, and whether it writes.
function accessOf(text, state) {
  return scalarAccess(text, state) || vectorAccess(text, state);
}

function scalarAccess(text, state) {
  const scalar = SCALAR_ACCESS.exec(text);
  if (!scalar) return null;
  const [, kind, , letter, register, base, offset, index, shift] = scalar, size = letter ? BYTES[letter] : register === "x" ? 8 : 4;
  const at = numberOf(state, base) + BigInt(offset || 0) + (numberOf(state, index) << BigInt(shift || 0));
  return { places: [BigInt.asUintN(64, at)], lanes: [0], size, writes: kind === "str" };
}

function vectorAccess(text, state) {
  const vector = VECTOR_ACCESS.exec(text);
  if (!vector) return null;
  const [, kind, , letter, , element, predicate, base, index, shift] = vector;
  const width = BYTES[element], size = BYTES[letter], digits = state.p[predicate];
  const count = digits.length / width, start = numberOf(state, base), places = [], lanes = [];
  for (let lane = 0; lane < count; lane++) {
    if (digits[lane * width] !== "1") continue;
    let offset;
    if (index && index.startsWith("z")) offset = elementOf(state.z[index.slice(1, -2)], lane, 8) << BigInt(shift || 0);
    else if (index && index.startsWith("#")) offset = BigInt(parseInt(index.slice(1)) * count * size + lane * size);
    else offset = (numberOf(state, index) << BigInt(shift || 0)) + BigInt(lane * size);
    places.push(BigInt.asUintN(64, start + offset));
    lanes.push(lane);
  }
  return { places, lanes, size, writes: kind === "st1" };
}

function numberOf(state, register) {
  if (!register || register === "xzr") return 0n;
  return register === "sp" ? state.sp || 0n : state.x[register.slice(1)];
}

function elementOf(bytes, lane, width) {
  let value = 0n;
  for (let n = width - 1; n >= 0; n--) value = (value << 8n) | BigInt(parseInt(bytes.substr((lane * width + n) * 2, 2), 16));
  return value;
}

// The registers that an instruction's text names.
function namesIn(text) {
  const all = { x: new Set(), z: new Set(), p: new Set() };
  for (const [, kind, number] of text.matchAll(/\b([xwzp])(\d+)/g)) all[kind === "w" ? "x" : kind].add(Number(number));
  return all;
}

if (typeof module !== "undefined") module.exports = { PARTS, BYTES, rowsOf, parted, linked, accessOf, elementOf, namesIn, numberOf };
