// The view of a call: its arguments and memory, the vector length, what it comes to, and what it costs at each vector length.
"use strict";

const apart = new Apart();

function showArgs() {
  const { params } = S.model.kernel;
  const field = (it, n) => made("label", {}, `${it.name}: ${it.isArray ? `[${it.type}]` : it.type}`, made("input", { value: S.model.args[n], "aria-label": it.name, oninput: (event) => ((S.model.args[n] = event.target.value.trim()), later(callChanged)) }));
  $("args").replaceChildren(...(params.length ? params.map(field) : [made("span", { class: "soft" }, "no parameters")]));
}

function showResult(...inner) {
  $("result").replaceChildren(...inner);
}

// Nothing of a run is shown, but why.
function showNoRun(...why) {
  showResult(made("span", { class: "bad" }, ...why));
  document.querySelector("main").classList.add("norun");
}

// A call is done anew: at once where it is short, else by a worker.
function callChanged() {
  const { model } = S;
  if (model.fault) return;
  apart.stop();
  model.map = $("map").value;
  const wrong = model.begin();
  $("map").classList.toggle("wrong", /^svec: map/.test(wrong || ""));
  $("early").hidden = !model.hasFirstFault();
  if (wrong) return showNoRun(inWords(wrong));
  if (!model.isLong) return callDone();
  const stop = made("button", { onclick: () => (apart.stop(), showNoRun("Stopped.")) }, "Stop");
  const told = (count, fault) => (fault ? showNoRun(`The worker failed: ${fault}`) : showResult(`A long run: ${count || 0} of ${LENGTHS.length} vector lengths are done. `, stop));
  told(0);
  apart.begin(model, told, (came) => guarded(() => (model.take(came), callDone())));
}

// What the program's own line means, where it is not plain.
function inWords(line) {
  return /out of memory/.test(line) ? `${line}. The program in this page may take ${MEMORY_MOST}, and this call wants more.` : line;
}

function callDone() {
  document.querySelector("main").classList.remove("norun");
  lengthChanged();
  costChanged();
  showDump();
}

function lengthChanged() {
  const { model } = S, { vl } = model, width = (model.class && model.class.width) || 0;
  $("vl").value = vl / 128;
  $("vl").setAttribute("aria-valuetext", `${vl} bits`);
  $("vlnote").replaceChildren(made("b", {}, `${vl} bits`), width ? `, ${vl / width} lanes of ${width}` : "");
  if (!model.run || !model.lengths) return;
  model.readLength();
  showEnd();
  showHits();
  if (S.cost) showPlot();
  showState(model.at, null);
  showDump();
}

// How the run ends, whether the kernel's own loop comes to the same, and what a stop list changes.
function showEnd() {
  const { ran, meaning, early } = S.model, agrees = S.model.agrees(), own = "The kernel’s own loop";
  const end = ran.result ? ["result ", made("b", {}, hex(ran.result))] : ran.stop ? [made("span", { class: "bad" }, `stops at a ${ran.stop.kind}`), `: ${stopSaid(ran.stop)}`] : [made("span", { class: "bad" }, "the steps are spent")];
  const same = agrees === null ? made("span", {}, `${own}: ${meaning.line}`) : made("span", { class: agrees ? "ok" : "bad" }, agrees ? `${own} comes to the same` : `${own}: ${meaning.line}`);
  const count = meaning.iterations === null ? "." : `, in ${meaning.iterations.toLocaleString("en")} iteration${meaning.iterations === 1 ? "" : "s"}.`;
  showResult(...end, ` after ${ran.steps.toLocaleString("en")} steps. `, same, count, ...(early ? [earlySaid(ran, early)] : []));
}

function earlySaid(ran, early) {
  const isSame = early.ran.line === ran.line, more = early.ran.steps - ran.steps;
  return made("div", { id: "earlysaid", class: isSame ? "" : "bad" }, `Where loads stop early: ${isSame ? "the same result" : early.ran.line}, after ${early.ran.steps.toLocaleString("en")} steps, ${more === 0 ? "as many" : more > 0 ? `${more} more` : `${-more} fewer`}. ${early.places ? "The strip below has both runs." : ""}`);
}

// ---- the plot of the lengths

function costChanged() {
  if (!S.model.lengths) return;
  S.cost = S.model.cost($("costof").value);
  showPlot();
}

// The bars of one length, part over part.
function barsOf(n, x, y, slot, isNow) {
  const { steps, over, parts } = S.cost, counts = parts[n] || { [S.model.class.kind === "vector" ? "chunk" : "scalar"]: steps[n] }, bars = [];
  let below = 0;
  for (const name of Object.keys(PARTS)) {
    if (!counts[name]) continue;
    const from = y(below / over[n]), to = y((below + counts[name]) / over[n]);
    bars.push(`<rect x="${x(n) - slot * 0.36}" width="${slot * 0.72}" y="${to}" height="${Math.max(0, from - to)}" fill="var(--s-${name})" opacity="${isNow ? 1 : 0.5}"/>`);
    below += counts[name];
  }
  return bars;
}

function showPlot() {
  const { steps, over, parts, unit } = S.cost, box = $("plot").getBoundingClientRect(), width = Math.max(240, box.width), height = Math.max(140, box.height);
  const left = 34, right = width - 6, upper = 30, lower = height - 20, each = steps.map((it, n) => it / over[n]), top = niceTop(Math.max(...each, 1e-9)), slot = (right - left) / 16;
  const x = (n) => left + slot * (n + 0.5), y = (value) => lower - ((lower - upper) * value) / top, drawn = [], now = S.model.vl / 128 - 1;
  for (const part of [0, 0.5, 1]) drawn.push(`<line class="grid" x1="${left}" x2="${right}" y1="${y(top * part)}" y2="${y(top * part)}"/>`, `<text x="${left - 5}" y="${y(top * part) + 3}" text-anchor="end">${label(top * part)}</text>`);
  steps.forEach((_, n) => drawn.push(...barsOf(n, x, y, slot, n === now)));
  drawn.push(`<text x="${left - 30}" y="9">${unit}</text>`);
  const anchor = now < 4 ? "start" : now > 11 ? "end" : "middle", at = now < 4 ? x(now) - slot * 0.36 : now > 11 ? x(now) + slot * 0.36 : x(now);
  const short = unit === "steps" ? "" : `${label(each[now])} ${unit.replace("instructions ", "")}, `;
  drawn.push(`<text class="now" x="${at}" y="${Math.max(22, y(each[now]) - 6)}" text-anchor="${anchor}">${short}${steps[now].toLocaleString("en")} steps</text>`);
  [0, 3, 7, 11, 15].forEach((n) => drawn.push(`<text x="${x(n)}" y="${lower + 14}" text-anchor="middle">${128 * (n + 1)}</text>`));
  const titled = (n) => Object.entries(parts[n] || {}).map(([name, count]) => `\n${PARTS[name][0]}: ${count}`).join("");
  steps.forEach((it, n) => drawn.push(`<rect class="hit" data-n="${n}" x="${x(n) - slot / 2}" width="${slot}" y="0" height="${height}"><title>${128 * (n + 1)} bits: ${it} steps${unit === "steps" ? "" : `, ${label(each[n])} ${unit}`}${titled(n)}</title></rect>`));
  $("plot").innerHTML = `<svg viewBox="0 0 ${width} ${height}" role="img" aria-label="${unit} at the sixteen vector lengths: ${each.map(label).join(", ")}">${drawn.join("")}</svg>`;
}

function label(value) {
  return value >= 100 || Number.isInteger(value) ? value.toFixed(0) : value >= 10 ? value.toFixed(1) : value.toFixed(2);
}

function niceTop(value) {
  const power = 10 ** Math.floor(Math.log10(value));
  return [1, 1.5, 2, 3, 4, 5, 6, 8, 10].map((it) => it * power).find((it) => it >= value * 1.02) || value;
}

// What the run leaves, as the program dumps it.
function showDump() {
  const { model } = S;
  if (!model.run || !$("dumps").open) return;
  const stored = model.kernel.items.find((it) => it.kind === "store"), n = Math.max(0, model.kernel.params.findIndex((it) => it.isArray && (!stored || it.name === stored.name)));
  const first = model.kernel.params[n], count = Number(model.count < 512n ? model.count : 512n);
  if (!$("range").value || $("range").dataset.own !== "yes") $("range").value = first && first.isArray ? `${model.args[n]}:${Math.min(256, Math.max(1, count * bytesOf(first.type)))}` : "";
  if (!$("range").value) return $("dump").replaceChildren();
  const came = model.program.run(model.file, model.run.map, model.run.args, model.vl, { dump: $("range").value });
  $("dump").textContent = came.err || came.out;
}
