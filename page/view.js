// What the views have in common, and the view of the kernel: its text with marks, what is wrong with it, its class and the registers it needs.
"use strict";

const $ = (id) => document.getElementById(id);
const made = (tag, attributes = {}, ...inner) => {
  const it = document.createElement(tag);
  for (const [name, value] of Object.entries(attributes)) {
    if (name === "class") it.className = value;
    else if (name.startsWith("on")) it.addEventListener(name.slice(2), value);
    else if (value !== undefined && value !== null) it.setAttribute(name, value);
  }
  it.append(...inner);
  return it;
};

// A text whose words between asterisks are stressed.
const said = (text) => text.split("*").map((it) => it.replaceAll(PRODUCT, "*")).map((it, n) => (n % 2 ? made("b", {}, it) : it));

// The page's state: the model, and what the views keep.
const S = { model: null, marks: [], lit: null, cost: null, unshown: [] };

function paint(text, marks) {
  const edges = new Set([0, text.length]), tokens = tokensOf(text), spans = [];
  [...tokens, ...marks].forEach((it) => (edges.add(it.at), edges.add(it.end)));
  const all = [...edges].sort((a, b) => a - b);
  let next = 0;
  for (let n = 0; n + 1 < all.length; n++) {
    const [from, to] = [all[n], all[n + 1]];
    while (next < tokens.length && tokens[next].end <= from) next++;
    const token = next < tokens.length && tokens[next].at <= from ? tokens[next] : null;
    const names = token ? [`t-${token.kind}`] : [];
    marks.forEach((it) => it.at <= from && to <= it.end && names.push(it.name));
    spans.push(made("span", { class: names.join(" ") }, text.slice(from, to)));
  }
  $("paint").replaceChildren(...spans, "\n\n");
}

function repaint() {
  const marks = [...S.marks];
  if (S.lit) marks.push({ ...S.lit, name: "t-lit" });
  paint($("text").value, marks);
  $("text").style.height = `${Math.max($("paint").offsetHeight, $("editor").clientHeight)}px`;
}

function gauge(label, need, most) {
  const bars = Array.from({ length: most }, (_, n) => made("i", { class: n < need ? "on" : "" }));
  return [made("span", {}, label), made("div", { class: "gauge", role: "img", "aria-label": `${label}: ${need} of ${most}`, title: `${need} of ${most}` }, ...bars), made("span", { class: "soft" }, `${need} of ${most}`)];
}

function showFault(fault) {
  $("editor").classList.toggle("wrong", !!fault);
  $("text").setAttribute("aria-invalid", !!fault);
  if (!fault) return $("fault").replaceChildren();
  const lines = [made("div", {}, made("b", {}, fault.line ? `Line ${fault.line}, column ${fault.column}. ` : ""), fault.words + " ", made("span", { class: "mono" }, fault.told))];
  if (fault.remedy) lines.push(made("div", {}, "Instead: ", made("span", { class: "remedy" }, fault.remedy)));
  if (fault.expected && fault.expected.length) lines.push(made("div", { class: "soft" }, "Here may stand: ", made("span", { class: "mono" }, fault.expected.slice(0, 14).join("  ") + (fault.expected.length > 14 ? "  .." : ""))));
  $("fault").replaceChildren(...lines);
}

function showClass({ told }, text) {
  const { class: kind, size, canonical, z, p, x } = told, isVector = kind.kind === "vector";
  const where = kind.places.length ? ` Line ${lineOf(text, kind.places[0].at).line}.` : "";
  $("class").className = kind.kind;
  $("class").replaceChildren(made("b", {}, kind.title + ". "), kind.words + where, made("span", { class: "soft" }, `  ${size} items.`));
  $("needs").replaceChildren(...(isVector ? [...gauge("Z", z, 30), ...gauge("P", p, 6)] : []), ...gauge("X", x, 15));
  $("canonical").textContent = canonical;
}

// The whole of what a kernel's text comes to; the fault, where it is refused.
function showKernel() {
  const text = $("text").value, { model } = S, fault = model.read(text);
  S.lit = null;
  S.marks = [];
  if (model.told) {
    showClass(model, text);
    S.marks = model.told.class.places.map((it) => ({ at: it.at, end: it.end, name: "t-why" }));
  }
  if (fault && fault.at !== undefined) S.marks.push({ at: fault.at, end: fault.end, name: "t-fault" });
  showFault(fault);
  repaint();
  document.querySelector("main").classList.toggle("old", !!fault);
  if (fault) $("codenote").textContent = "of the last kernel that compiled";
  else showListing();
  return fault;
}
