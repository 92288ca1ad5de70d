// The view of the code: the listing in parts, with jumps, arrays, counts and breakpoints.
"use strict";

// The rows are made as one text, since hundreds of elements made one by one take longer than the program does.
const escaped = (text) => text.replace(/[&<>"]/g, (it) => `&#${it.charCodeAt(0)};`);
const span = (kind, text) => `<span class="${kind}">${text}</span>`;

function painted(text) {
  const [op, ...rest] = text.split(" "), out = [span("op", escaped(op)), rest.length ? " ".repeat(Math.max(1, 8 - op.length)) : ""];
  for (const part of rest.join(" ").split(/(\b[zp]\d+(?:\.[bhsd])?(?:\/[zm])?|#-?(?:0x)?[0-9a-f]+)/)) {
    const kind = /^z\d/.test(part) ? "reg-z" : /^p\d/.test(part) ? "reg-p" : /^#/.test(part) ? "imm" : null;
    out.push(kind ? span(kind, escaped(part)) : escaped(part));
  }
  return out.join("");
}

// What stands beside an instruction: the array that it accesses, the operator that it does, or where it jumps.
function tagOf(row) {
  const { item } = row;
  if (row.array) return `<b class="${item && item.kind === "store" ? "w" : ""}">${escaped(row.array)}[]</b>`;
  if (item && !row.isMore) return escaped(S.model.text.slice(item.kind === "update" ? item.signAt : item.at, item.kind === "update" ? item.signAt + item.sign.length : item.end));
  if (row.target !== null) return `${row.target <= row.at ? "↑" : "↓"} ${row.target.toString(16).slice(-3)}`;
  return "";
}

function rowText(row, divides) {
  const place = row.at.toString(16), isSet = S.model.breaks.has(row.at), text = escaped(row.text);
  const kind = `row${isSet ? " stop" : ""}${divides ? " divides" : ""}`;
  return `<div class="${kind}" role="option" id="row${row.n}" aria-selected="${isSet}" aria-label="${place} ${text}" title="${place}: ${row.word} ${text}">${span("gut", "●")}${span("at", place.slice(-3))}${span("text", painted(row.text))}${span("tag", tagOf(row))}${span("hits", "")}</div>`;
}

// Where a line divides the passes of a turn, which are the same two or four times.
function dividesOf(name, rows) {
  if (name !== "turn") return new Set();
  const ends = rows.map((row, n) => (/^incp x9,/.test(row.text) ? n : -1)).filter((n) => n >= 0);
  return new Set(ends.slice(0, -1));
}

// A part of the code with its first rows; the others are added by `more`, some at a time.
function partText({ name, rows, shown, divides }) {
  const [title, says] = PARTS[name];
  const head = `<div class="head" title="folds the part">${escaped(title)}<span>${escaped(says)}</span><em>${rows.length} word${rows.length > 1 ? "s" : ""}</em></div>`;
  return `<div class="part" role="group" aria-label="${escaped(title)}" style="--c: var(--s-${name})">${head}${rows.slice(0, shown).map((row, n) => rowText(row, divides.has(n))).join("")}</div>`;
}

const AT_ONCE = 150;

// The rows that are seen at first; the others follow when nothing else waits, so that a keystroke is answered before them.
function showListing() {
  const { rows, file } = S.model, parts = [];
  for (let from = 0, to = 0; from < rows.length; from = to) {
    while (to < rows.length && rows[to].part === rows[from].part) to++;
    const part = { name: rows[from].part, rows: rows.slice(from, to), shown: Math.max(0, Math.min(to, AT_ONCE) - from) };
    parts.push({ ...part, divides: dividesOf(part.name, part.rows) });
  }
  const box = $("listing");
  box.innerHTML = parts.map(partText).join("");
  S.unshown = parts.filter((it, n) => ((it.element = box.children[n]), named(it, 0), it.shown < it.rows.length));
  setTimeout(more);
  $("codenote").textContent = `${rows.length} words, ${file.length} bytes in the file · a click sets a breakpoint`;
  S.cursor = S.over = null;
}

// The rows of a part know their elements, which stand after its head.
function named({ element, rows, shown }, from) {
  for (let n = from; n < shown; n++) rows[n].element = element.children[n + 1];
}

// Adds rows to the first part that lacks some.
function more() {
  const part = S.unshown[0], from = part && part.shown;
  if (!part) return;
  part.shown = Math.min(from + AT_ONCE, part.rows.length);
  part.element.insertAdjacentHTML("beforeend", part.rows.slice(from, part.shown).map((row, n) => rowText(row, part.divides.has(from + n))).join(""));
  named(part, from);
  if (part.shown === part.rows.length) S.unshown.shift();
  setTimeout(more);
}

// All rows, for what looks at them.
function wholeListing() {
  while (S.unshown.length) more();
}

// The listing's own clicks and moves, once for all its rows.
function listenToListing() {
  const box = $("listing"), rowOf = (event) => (event.target.closest(".row") ? S.model.rows[Number(event.target.closest(".row").id.slice(3))] : null);
  const over = (row) => row !== S.over && light((S.over = row));
  box.addEventListener("click", (event) => {
    const row = rowOf(event), head = event.target.closest(".head");
    if (row) toggleBreak(row);
    else if (head) head.parentElement.classList.toggle("folded");
  });
  box.addEventListener("mouseover", (event) => over(rowOf(event)));
  box.addEventListener("mouseleave", () => over(null));
}

function showHits() {
  wholeListing();
  S.model.rows.forEach((it) => (it.element.querySelector(".hits").textContent = it.hits ? `×${it.hits}` : ""));
}

function toggleBreak(row) {
  wholeListing();
  const { breaks } = S.model, isSet = !breaks.has(row.at);
  if (isSet && breaks.size >= 16) return;
  if (isSet) breaks.add(row.at);
  else breaks.delete(row.at);
  row.element.classList.toggle("stop", isSet);
  row.element.setAttribute("aria-selected", isSet);
  keepLink();
}

// The cursor of the keyboard in the listing.
function moveCursor(by) {
  wholeListing();
  const { rows, next } = S.model, from = S.cursor || next || rows[0], to = rows[Math.max(0, Math.min(rows.length - 1, from.n + by))];
  if (S.cursor) S.cursor.element.classList.remove("cursor");
  S.cursor = to;
  to.element.classList.add("cursor");
  to.element.parentElement.classList.remove("folded");
  to.element.scrollIntoView({ block: "nearest" });
  $("listing").setAttribute("aria-activedescendant", to.element.id);
}

// Lights what belongs to an instruction: its place in the kernel, what else does the same, and where it jumps.
function light(row) {
  wholeListing();
  const item = row && row.item;
  S.model.rows.forEach((it) => {
    it.element.classList.toggle("lit", !!item && it.item === item);
    it.element.classList.toggle("aim", !!row && row.target === it.at);
  });
  S.lit = item ? { at: item.from, end: item.to } : null;
  repaint();
}

// From the kernel to its code: what stands under the caret.
function caretMoved() {
  const { model } = S;
  if (!model || !model.kernel || model.fault || document.activeElement !== $("text")) return;
  wholeListing();
  const at = $("text").selectionStart, item = model.kernel.items.filter((it) => it.at <= at && at <= it.end).sort((a, b) => a.end - a.at - (b.end - b.at))[0];
  model.rows.forEach((it) => it.element.classList.toggle("lit", !!item && !!it.item && it.item.at === item.at && it.item.kind === item.kind));
  const first = model.rows.find((it) => it.element.classList.contains("lit"));
  if (first) first.element.scrollIntoView({ block: "nearest" });
}

function reveal(element) {
  element.parentElement.classList.remove("folded");
  const box = $("listing"), part = element.getBoundingClientRect(), outer = box.getBoundingClientRect();
  if (part.top < outer.top + 20 || part.bottom > outer.bottom - 20) box.scrollTop += part.top - outer.top - outer.height / 3;
}
