// What is wrong with a kernel, in words, with the place and what to write instead; and why its class is what it is. The refusal and the class
// are the program's, and so is what could stand at a place; the words and the places are this page's own.
"use strict";

const FAULTS = [
  [/^bad byte at (\d+)/, "byte", () => "This begins no token."],
  [/^syntax at token (\d+)/, "token", () => "Up to here the text could still become a kernel. This token cannot follow."],
  [/^too deep at token (\d+)/, "token", () => "More than 64 brackets are open here, or it is the 65th sign in a row."],
  [/^unknown name at item (\d+)/, "item", () => "No such name is visible here."],
  [/^name declared twice at item (\d+)/, "item", () => "This name is declared already."],
  [/^wrong kind at item (\d+)/, "item", () => "An array, a value or a condition stands where another kind has to."],
  [/^want (\w+) found (\w+) at item (\d+)/, "item", (m) => `Wanted is ${m[1]}, found is ${m[2]}. Nothing is converted but by “as”.`],
  [/^no type at item (\d+)/, "item", () => "Literals alone give no type here."],
  [/^literal out of range at item (\d+)/, "item", () => "The literal is outside its type."],
  [/^shift out of range at item (\d+)/, "item", () => "A shift by the width of the type or more."],
  [/^offset out of range at item (\d+)/, "item", () => "An offset is from -1024 to 1024."],
  [/^too many live (\w) (\d+)/, null, (m) => `More values are in use at one place than there are registers: ${m[2]} of class ${m[1].toUpperCase()}. Fewer lets and accumulators at a time take fewer.`],
  [/^too large (\d+)/, null, (m) => `${m[1]} items, and at most 1,000 are allowed.`],
  [/^too deep (\d+)/, null, (m) => `The tree is ${m[1]} deep, and at most 64 levels are allowed.`],
  [/^too long/, null, () => "More than 65,536 bytes, or more than 4,096 tokens."],
];

const SIGNS = [..."()[]{},;:=<>+-*&|^~!", "->", "..", "==", "!=", "<=", ">=", "<<", ">>", "&&", "||"];
const OPERATORS = "== != < <= > >= << >> + - * & && | || ^ as".split(" ");
const STANDS = { zzz: "a name", 1: "a number" };
const MOST_TOKENS = 400;

// What could stand at the n-th token, asked of the program: each word and sign in turn, after the tokens before it.
function expectedAt(program, tokens, n) {
  const before = tokens.slice(0, n).map((it) => it.text).join(" ");
  const stands = (token) => {
    const came = program.check(`${before} ${token}`), refused = /syntax at token (\d+)/.exec(came.err);
    return came.status === 0 || !refused || Number(refused[1]) > n;
  };
  return [...RESERVED, ...TYPES, ...SIGNS, ...UPDATES, ...Object.keys(STANDS)].filter(stands).map((it) => STANDS[it] || it);
}

// The same in few words.
function grouped(able) {
  for (const [words, name] of [[OPERATORS, "an operator"], [[...TYPES], "a type"], [UPDATES, "an update"]])
    if (able.filter((it) => words.includes(it)).length > 5) able = [...able.filter((it) => !words.includes(it)), name];
  const begins = ["select", "min", "max", "abs", "(", "~", "!", "-", "a name", "a number"];
  if (able.filter((it) => begins.includes(it)).length >= 8) able = [...able.filter((it) => !begins.includes(it)), "an expression"];
  return able;
}

// What to write instead, by the tables of tools/remedies.py, where page/build found them.
function remedyOf(text, kind, n, tokens, able) {
  if (typeof REMEDIES === "undefined") return null;
  const whole = (pattern) => new RegExp(`^(?:${pattern})$`);
  if (kind === "byte") {
    const rest = String.fromCharCode(...new TextEncoder().encode(text).slice(n, n + 4));
    return (REMEDIES.byte.find(([pattern]) => new RegExp(`^(?:${pattern})`).test(rest)) || [])[1];
  }
  const here = n < tokens.length ? tokens[n] : null, joined = tokens.slice(Math.max(0, n - 60), n).map((it) => it.text).join(" ");
  const glued = here && n && tokens[n - 1].end === here.at ? joined + "~" : joined;
  const close = here && here.text.length > 2 && !RESERVED.has(here.text) && able.find((it) => it.length > 1 && RESERVED.has(it) && isNear(here.text, it));
  if (close) return `did you mean ${close}?`;
  if (here) for (const [pattern, before, remedy] of REMEDIES.token) if (remedy && whole(pattern).test(here.text) && (new RegExp(before).test(joined) || new RegExp(before).test(glued))) return remedy;
  if (n && able.includes(";") && !(here && ";)],".includes(here.text))) return `a ; is missing after ${tokens[n - 1].text} in line ${lineOf(text, tokens[n - 1].at).line}`;
  return null;
}

// Whether two words differ in one letter more, less, other, or by two that stand the other way round.
function isNear(a, b) {
  const least = Array.from({ length: b.length + 1 }, (_, n) => n);
  for (let i = 1; i <= a.length; i++) {
    let corner = least[0];
    least[0] = i;
    for (let j = 1; j <= b.length; j++) {
      const next = Math.min(least[j] + 1, least[j - 1] + 1, corner + (a[i - 1] !== b[j - 1]));
      (corner = least[j]), (least[j] = next);
    }
  }
  return least[b.length] <= (a.length > 4 ? 2 : 1);
}

// What to write instead where an item is refused.
function remedyOfItem(text, told, items, item) {
  const wanted = /^want (\w+) found (\w+)/.exec(told);
  if (wanted) return item.kind === "for" ? `declare the bound as ${wanted[1]}` : `write ${text.slice(item.from, item.to)} as ${wanted[1]}, or widen what stands beside it`;
  if (/^unknown name/.test(told)) {
    const names = [...items.params, ...items.vars, ...items.items.filter((it) => it.kind === "let")].map((it) => it.name);
    const near = (item.name || "").length > 1 && names.find((it) => it !== item.name && isNear(it, item.name));
    return names.includes(item.name) ? `${item.name} is not visible here: a let ends with its block` : near ? `did you mean ${near}?` : null;
  }
  if (/^no type/.test(told)) return "say the type: let t: u8 = ..";
  return null;
}

// What a refusal says, in words, with the place in the text that it names, where it names one.
function faultOf(text, said, program) {
  const told = said.replace(/^svec: kernel: /, "").trim();
  for (const [form, kind, words] of FAULTS) {
    const match = form.exec(told);
    if (!match) continue;
    const fault = { told, words: words(match) };
    if (kind) placed(fault, text, kind, Number(match[match.length - 1]), program);
    if (fault.at !== undefined) Object.assign(fault, lineOf(text, fault.at));
    return fault;
  }
  return { told, words: told };
}

function placed(fault, text, kind, n, program) {
  if (kind === "byte") {
    const bytes = new TextEncoder().encode(text), at = new TextDecoder().decode(bytes.slice(0, n)).length;
    return Object.assign(fault, { at, end: at + 1, remedy: remedyOf(text, "byte", n) });
  }
  const items = new Items(text), { tokens } = items, all = kind === "token" ? tokens : items.items, end = text.trimEnd().length;
  Object.assign(fault, n < all.length ? { at: all[n].at, end: all[n].end } : { at: Math.max(0, end - 1), end });
  if (kind === "item") return n < all.length && Object.assign(fault, { remedy: remedyOfItem(text, fault.told, items, all[n]) });
  if (!/^syntax/.test(fault.told) || n > MOST_TOKENS || !program) return fault;
  const able = expectedAt(program, tokens, n);
  return Object.assign(fault, { expected: grouped(able), remedy: remedyOf(text, "token", n, tokens, able) });
}

// The class in words, and the places that it comes from, as far as the page finds them.
function classOf(text, line) {
  const [, kind, what] = /^class (\w+) (\w+)/.exec(line) || [];
  const { items, index, vars } = new Items(text), loop = items.filter((it) => it.inLoop);
  if (kind === "vector") {
    const width = Number(what);
    return { kind, width, title: `Vector, lanes of ${width} bits`, words: `A chunk of iterations is done at once: ${128 / width} at 128 bits, ${2048 / width} at 2,048.`, places: [] };
  }
  const names = new Set(vars.map((it) => it.name)), updates = loop.filter((it) => it.kind === "update");
  const why = {
    noloop: ["There is no loop.", []],
    accumulator: ["An accumulator is read in the loop, so each iteration needs the one before.", loop.filter((it) => it.kind === "name" && names.has(it.name))],
    mixed: ["One accumulator has updates with different operators.", updates.filter((it) => updates.some((that) => that.name === it.name && that.sign !== it.sign))],
    break: ["A store or an update stands before a break.", loop.filter((it) => it.kind === "break")],
    computed: ["An array is read at a computed index, and a lane has no room for an address, or a store or a break may disturb the read.", loop.filter((it) => it.kind === "read" && !it.isStream)],
    carried: ["An iteration needs what one shortly before it stored.", loop.filter((it) => it.kind === "store" && loop.some((that) => (that.kind === "read" || that.kind === "store") && that !== it && that.name === it.name))],
  }[what] || [what, []];
  return { kind, what, index, title: "Scalar, one iteration after another", words: why[0], places: why[1] };
}

if (typeof module !== "undefined") {
  Object.assign(globalThis, require("./kernel.js"));
  module.exports = { faultOf, classOf };
}
