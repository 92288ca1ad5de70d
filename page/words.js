// What an instruction did, in a sentence with its numbers; and why P0 has the lanes that it has. Words between asterisks are stressed.
"use strict";

const PRODUCT = "\u0001";
const LANES_OF = { b: 8, h: 16, w: 32, s: 32, d: 64 };
const plural = (count, word) => `*${count}* ${word}${count === 1 || count === 1n ? "" : "s"}`;

// How many elements of so many bytes a predicate has on.
function lanesOn(digits, letter) {
  let count = 0;
  for (let at = 0; at < digits.length; at += BYTES[letter]) count += digits[at] === "1";
  return count;
}

// Lanes by number, with runs in short.
function lanesSaid(digits, letter) {
  const on = [], runs = [];
  for (let at = 0; at < digits.length; at += BYTES[letter]) if (digits[at] === "1") on.push(at / BYTES[letter]);
  for (const lane of on) {
    const last = runs[runs.length - 1];
    if (last && last[1] === lane - 1) last[1] = lane;
    else runs.push([lane, lane]);
  }
  return runs.length === 0 ? "no lane" : runs.length > 5 ? plural(on.length, "lane") : (on.length > 1 ? "lanes " : "lane ") + runs.map(([a, b]) => (a === b ? a : `${a} to ${b}`)).join(", ");
}

// What a WHILELO did by what it counted: how many lanes it turned on of how many.
function lanesCounted(counts, vl) {
  const lanes = vl / 8 / BYTES[counts.letter], left = counts.bound > counts.first ? counts.bound - counts.first : 0n;
  return { lanes, on: left < BigInt(lanes) ? Number(left) : lanes, left };
}

function spanSaid(first, last, word) {
  return first === last ? `${word} ${first}` : `${word}s ${first} to ${last}`;
}

// Why P0 has these lanes, where a WHILELO made it.
function laneNote(model) {
  const counts = model.countsNow();
  if (!counts || !model.states.now.p[0]) return null;
  const { lanes, on, left } = lanesCounted(counts, model.vl), bound = model.kernel.bound || "n", now = lanesOn(model.states.now.p[0], counts.letter);
  const index = model.kernel.index || "i";
  if (counts.isOne) return `p0 has one lane on: iteration ${model.states.now.x[9]} is done by itself.`;
  const isTurn = model.last && model.last.part === "turn" && !/^whilelo/.test(model.last.text) && on === lanes;
  let said;
  if (isTurn) said = `p0 has all ${plural(lanes, "lane")} on, and lane k does iteration ${model.states.before.x[9]} + k. A turn does four whole chunks under the same p0; only then lanes are counted again.`;
  else if (on === 0) said = `No iteration is left: ${index} = ${counts.first} has reached ${bound} = ${counts.bound}, so p0 has no lane on, and the loop ends.`;
  else if (on === lanes) said = `p0 has all ${plural(lanes, "lane")} on: lane k does iteration ${counts.first} + k, and *${left}* iterations are left.`;
  else said = `p0 has *${on}* of ${lanes} lanes on: ${bound} = ${counts.bound} leaves *${on}* ${on === 1 ? "iteration" : "iterations"}, ${counts.first} to ${counts.bound - 1n}, and lane k does iteration ${counts.first} + k. ${capital(spanSaid(on, lanes - 1, "lane"))} would do ${spanSaid(counts.first + BigInt(on), counts.first + BigInt(lanes - 1), "iteration")}, which the loop has not: off, ${lanes - on === 1 ? "it reads and writes" : "they read and write"} nothing and cannot fault.`;
  if (now < on) said += ` Since then p0 was cut to ${plural(now, "lane")}: those before the first that breaks, as far as the loads came through.`;
  return said;
}

function capital(text) {
  return text[0].toUpperCase() + text.slice(1);
}

// Elements that an access touched, in words.
function elementsSaid(model) {
  const { access, last } = model, name = last.array, window = model.windows.find((it) => it.name === name);
  if (!window) return plural(access.places.length, "element");
  const at = access.places.map((it) => BigInt.asIntN(64, it - window.at) / BigInt(window.size)), isRow = at.every((it, n) => n === 0 || it === at[n - 1] + 1n);
  if (at.length === 1) return `*${name}[${at[0]}]*`;
  return isRow ? `*${name}[${at[0]}]* to *${name}[${at[at.length - 1]}]*` : `${plural(at.length, "element")} of ${name}`;
}

const SAYS = [
  [/^whilelo p(\d+)\.([bhsd]), (x\d+|xzr), (x\d+)$/, (m, c) => {
    const counts = countsOf(c.last.text, { x: c.before.x }), { lanes, on } = lanesCounted(counts, c.vl);
    if (counts.isOne) return "p0 gets lane 0 alone: an iteration is done by itself.";
    return `Lane k of p${m[1]} is on where ${counts.first} + k < ${counts.bound}: *${on}* of ${lanes}. ${on ? "" : "None is: the flags say so."}`;
  }],
  [/^ptrue p(\d+)/, (m) => `All lanes of p${m[1]} are on, however long a vector is.`],
  [/^cnt([bhwd]) (x\d+)$/, (m, c) => `${m[2]} = *${c.now.x[m[2].slice(1)]}*: how many lanes of ${LANES_OF[m[1]]} bits a vector has. The code learns here how long it is.`],
  [/^subs x8, (x\d+), x8, lsl #2$/, (m, c) => {
    const lanes = c.before.x[8], all = c.before.x[m[1].slice(1)], few = all < lanes * 4n;
    return few ? `${all} iterations are fewer than four chunks of ${lanes}: no turns, the chunks are done one at a time.` : `x8 = ${all} \u2212 4 \u00b7 ${lanes} = *${c.now.x[8]}*, the last iteration from which four whole chunks are left.`;
  }],
  [/^subs xzr, x9, x8$/, (m, c) => `Are four whole chunks left? x9 = ${c.before.x[9]}, and the last turn begins at ${c.before.x[8]} at the latest.`],
  [/^incp x9, p0\.([bhsd])$/, (m, c) => `x9 goes on by the lanes that are on in p0: ${c.before.x[9]} + *${lanesOn(c.before.p[0], m[1])}* = ${c.now.x[9]}.`],
  [/^setffr$/, () => "FFR is filled: it will say how far first-fault loads came."],
  [/^ldff1/, (m, c) => `Reads ${c.access.places.length ? elementsSaid(c) : "nothing"}: only the first lane has to come through. At the first later one that cannot be read the load ends without a fault, and FFR has the lanes before it.`],
  [/^rdffr p(\d+)/, (m, c) => `p${m[1]} keeps the lanes whose loads came through: ${lanesSaid(c.now.p[m[1]], c.main)}.`],
  [/^brkb p(\d+)\.b, p(\d+)\/z, p(\d+)\.b/, (m, c) => `p${m[1]} keeps the lanes before the first that breaks: ${lanesSaid(c.now.p[m[1]], c.main)}.`],
  [/^ptest/, (m, c) => `The flags say whether a lane of p0 is on: ${c.now.nzcv[1] === "0" ? "one is" : "none is"}.`],
  [/^cmp\w* p(\d+)\.([bhsd])/, (m, c) => `p${m[1]} has the lanes for which ${itemSaid(c) || "it holds"}: ${lanesSaid(c.now.p[m[1]], m[2])}.`],
  [/^ld1.*p(\d+)\/z/, (m, c) => `Each lane that is on in p${m[1]} reads an element${c.access.places.length ? `: ${elementsSaid(c)}` : ", and none is"}. The others get 0 and read nothing.`],
  [/^st1.*, p(\d+),/, (m, c) => `Each lane that is on in p${m[1]} writes its element${c.access.places.length ? `: ${elementsSaid(c)}` : ", and none is"}. The others write nothing.`],
  [/^ldr/, (m, c) => `Reads ${elementsSaid(c)}.`],
  [/^str/, (m, c) => `Writes ${elementsSaid(c)}.`],
  [/^dup (z\d+)\.[bhsd], [wx](\d+)$/, (m, c) => `Every lane of ${m[1]} gets ${c.kernel.params[m[2]] ? c.kernel.params[m[2]].name + " = " : ""}${c.before.x[m[2]]}.`],
  [/^(uaddv|saddv|sminv|smaxv|uminv|umaxv|andv|orv|eorv) \w+, p\d+, (z\d+)/, (m) => `The lanes of ${m[2]} are joined into one number.`],
  [/^svc/, (m, c) => `The program ends, with ${c.before.x[0]} in x0.`],
  [/^(?:b|b\.\w+|cbn?z [xw]\d+,|tbn?z [xw]\d+, #\d+,) #-?\d+$/, (m, c) => branchSaid(c)],
  [/^subs xzr, x9, x\d+$/, (m, c) => `Are iterations left?`],
  [/^add x9, x9, #1$/, () => "On to the next iteration."],
];

function branchSaid(c) {
  const isTaken = c.now.pc === c.last.target, aim = c.byPlace.get(c.last.target), isLoop = c.last.target <= c.last.at && aim && aim.part === c.last.part;
  const to = aim ? `${c.last.target.toString(16).slice(-3)}, ${PARTS[aim.part][0].toLowerCase()}` : "";
  if (!isTaken) return isLoop ? "Not taken: the loop is done." : "Not taken.";
  return isLoop ? `Taken, back to ${to}: ${c.last.part === "chunk" ? "a lane is on, so " : ""}it goes round again.` : `Taken, to ${to}.`;
}

// The text of the kernel that an instruction does. (Its own asterisks stress nothing.)
function itemSaid(c) {
  const item = c.last.sum || c.last.item;
  return item ? c.text.slice(item.from, item.to).replace(/\*/g, PRODUCT) : "";
}

// What the last step did.
function stepSaid(model) {
  const { last, states } = model;
  if (!last) return "Nothing is done yet. The registers x0 on hold the arguments; p0 and the z registers are empty.";
  const c = { last, before: states.before, now: states.now, access: model.access, vl: model.vl, kernel: model.kernel, text: model.text, byPlace: model.byPlace, windows: model.windows, main: mainLetter(model) };
  if (model.isEnd && model.ran.stop) return `The run stops here: ${stopSaid(model.ran.stop)}.`;
  for (const [form, says] of SAYS) {
    const match = form.exec(last.text);
    if (match) return says(match, c);
  }
  const done = itemSaid(c), isLanes = /\bz\d/.test(last.text);
  if (done) return `${last.isMore ? "A part of" : isLanes ? "Lane by lane:" : "Does"} *${done}*.`;
  return { guard: "Vector code is right only where no store meets what another array reads: this compares the ends of the arrays.", entry: "An argument is brought to its type.", setup: "The scalar loop counts up to 0, so the addresses are moved to the ends of the arrays." }[last.part] || "";
}

// The letter of the lanes that the kernel's iterations have.
function mainLetter(model) {
  return { 8: "b", 16: "h", 32: "s", 64: "d" }[model.class.width || 64];
}

function stopSaid(stop) {
  const kinds = { read: "what is read is not mapped", write: "what is written may not be", fetch: "no code is here", undefined: "no such instruction", call: "no such call", break: "a break" };
  return `${kinds[stop.kind] || stop.kind}${stop.at ? `, at ${hex(stop.at)}` : ""}`;
}

if (typeof module !== "undefined") module.exports = { laneNote, stepSaid, stopSaid };
