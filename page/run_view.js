// The view of a run: the strip of its steps, what the last step did, registers lane by lane, and memory.
"use strict";

const FRAME = 46;

function showState(steps, from) {
  const { model } = S;
  if (!model.run || !model.film) return;
  model.stand(steps, from);
  const { states, last, next, isEnd } = model;
  wholeListing();
  model.rows.forEach((it) => it.element.classList.remove("next", "done"));
  if (last) last.element.classList.add("done");
  if (next) next.element.classList.add("next");
  if (next || last) reveal((next || last).element);
  const total = model.ran.steps.toLocaleString("en"), isCut = model.ran.steps > RECORDED;
  $("where").replaceChildren("step ", made("b", {}, steps.toLocaleString("en")), ` of ${total}`);
  $("runnote").textContent = (states.by === "start" ? "at the start" : `reached by “${states.by}”${isEnd ? `: ${states.stood.line}` : ""}`) + (isCut ? `; strip, counts and touched elements are of the first ${RECORDED.toLocaleString("en")} steps` : "");
  $("back").disabled = $("first").disabled = steps === 0;
  $("step").disabled = $("go").disabled = $("end").disabled = steps >= model.ran.steps;
  showDoing(model);
  const held = model.held();
  showVectors(model, held);
  showScalars(model, held);
  showArrays(model);
  showPages(model);
  drawTimeline();
  keepLink();
}

function showDoing(model) {
  const { last } = model, parts = [];
  if (last) parts.push(made("span", { class: "chip", style: `--c: var(--s-${last.part})` }, PARTS[last.part][0]), made("code", {}, last.text));
  parts.push(made("div", { id: "sentence" }, ...said(stepSaid(model))));
  $("doing").replaceChildren(...parts);
}

// ---- vectors and predicates

// The size of a register's elements: that of the last step that named it, or of the code's first.
function elementSizes(model) {
  const sizes = new Map();
  const read = (text, isLate) => {
    for (const [, name, letter] of text.matchAll(/\bz(\d+)\.([bhsd])/g)) if (isLate || !sizes.has(Number(name))) sizes.set(Number(name), BYTES[letter]);
  };
  model.rows.forEach((it) => read(it.text, false));
  model.film.slice(0, model.at).forEach((it) => it.row && read(it.row.text, true));
  return sizes;
}

function valueText(bytes, lane, width, isSigned) {
  const value = elementOf(bytes, lane, width);
  return (isSigned ? BigInt.asIntN(width * 8, value) : value).toString();
}

function registerRow(name, kind, count, each, { isNew, holds, title } = {}) {
  const cells = Array.from({ length: count }, (_, lane) => {
    const cell = made("i");
    each(cell, lane);
    return cell;
  });
  const lanes = made("div", { class: `lanes ${kind}${count > 32 ? " many" : count > 16 ? " some" : ""}`, role: "img", "aria-label": title || name }, ...cells);
  return made("div", { class: `reg${isNew ? " new" : ""}`, title: title || "" }, made("span", { class: "name" }, made("em", {}, holds || ""), name), lanes);
}

// The iterations that the lanes of P0 stand for, where a WHILELO gave them.
function laneRule(model, lanes) {
  const counts = model.countsNow(), isVector = model.last && ["start", "turn", "chunk", "single"].includes(model.last.part);
  if (!counts || !isVector || lanes > 64) return [];
  const isDone = /^incp/.test(model.last.text), first = counts.isOne || model.last.part === "turn" || isDone ? (isDone ? model.states.before : model.states.now).x[9] : counts.first;
  const index = model.kernel.index || "i";
  return [registerRow(index, "rule", lanes, (cell, lane) => {
    const it = first + BigInt(lane), isOn = it < counts.bound && (!counts.isOne || lane === 0);
    cell.textContent = lanes <= 32 || lane % 4 === 0 ? it.toString() : "";
    cell.title = isOn ? `lane ${lane}: iteration ${it}` : `lane ${lane}: no iteration`;
    if (!isOn) cell.classList.add("off");
  }, { holds: "iteration" })];
}

function predicateRow(name, digits, before, lanes, width, holds) {
  const isNew = before !== undefined && before !== digits, on = Array.from({ length: lanes }, (_, lane) => digits[lane * width] === "1"), count = on.filter((it) => it).length;
  return registerRow(name, "pred", lanes, (cell, lane) => {
    if (on[lane]) cell.classList.add("on");
    if (isNew && before[lane * width] !== digits[lane * width]) cell.classList.add("changed");
    cell.title = `${name}, lane ${lane}: ${on[lane] ? "on" : "off"}`;
  }, { isNew, holds: holds ? `${holds} · ${count}` : `${count} of ${lanes}`, title: `${name}: ${count} of ${lanes} lanes on` });
}

function vectorRow(n, width, { model, isSigned, governing, holds }) {
  const { now, before } = model.states, count = model.vl / 8 / width, name = `z${n}.${{ 1: "b", 2: "h", 4: "s", 8: "d" }[width]}`, bits = width * 8;
  const all = Array.from({ length: count }, (_, lane) => BigInt.asIntN(bits, elementOf(now.z[n], lane, width))), deepest = Number(all.reduce((a, b) => ((b < 0n ? -b : b) > a ? (b < 0n ? -b : b) : a), 1n));
  return registerRow(name, "", count, (cell, lane) => {
    const text = valueText(now.z[n], lane, width, isSigned), room = count <= 8 ? 12 : count <= 16 ? 5 : count <= 32 ? 2 : 0, at = lane * width * 2;
    cell.textContent = text.length <= room ? text : room > 2 ? "·" : "";
    cell.title = `z${n}, lane ${lane}: ${text}`;
    cell.classList.add(text === "0" ? "zero" : "some");
    if (count > 16) cell.style.setProperty("--deep", `${12 + (58 * Math.abs(Number(all[lane]))) / deepest}%`);
    if (governing && governing[lane * width] !== "1") cell.classList.add("off");
    if (before && now.z[n].slice(at, at + width * 2) !== before.z[n].slice(at, at + width * 2)) cell.classList.add("changed");
  }, { isNew: before && before.z[n] !== now.z[n], holds });
}

function showVectors(model, held) {
  const { used, last, kernel, vl } = model, { now, before } = model.states;
  if (!used.z.length) return $("vectors").replaceChildren();
  const sizes = elementSizes(model), names = last ? namesIn(last.text) : { z: new Set(), p: new Set() }, main = (model.class.width || 32) / 8, lanes = vl / 8 / main;
  const isSigned = kernel.params.some((it) => it.isArray && it.type[0] === "i") || /^i/.test(kernel.result || "");
  const governing = last && names.z.size && names.p.size ? model.states.before.p[[...names.p][0]] : null;
  const rows = laneRule(model, lanes);
  for (const n of used.p) rows.push(predicateRow(`p${n}`, now.p[n], before ? before.p[n] : undefined, lanes, main, held.get(`p${n}`)));
  if (used.ffr) rows.push(predicateRow("ffr", now.ffr, before ? before.ffr : undefined, lanes, main, "loads came to"));
  const note = laneNote(model);
  if (note) rows.push(made("div", { id: "lanenote" }, ...said(note)));
  for (const n of used.z) rows.push(vectorRow(n, sizes.get(n) || main, { model, isSigned, governing: names.z.has(n) ? governing : null, holds: held.get(`z${n}`) }));
  $("vectors").replaceChildren(...rows);
}

function showScalars(model, held) {
  const { now, before } = model.states, { params } = model.kernel;
  const cells = model.used.x.map((n) => {
    const value = now.x[n], param = params[n], small = (value < 10000n || value > (1n << 64n) - 10000n) && !(param && param.isArray && value >= 4096n);
    const name = param && number(model.args[n]) === value ? param.name : held.get(`x${n}`);
    return made("div", { class: `cell${before && before.x[n] !== value ? " changed" : ""}`, title: `x${n} ${hex(value)}${name ? `: ${name}` : ""}` }, made("span", {}, `x${n}`), name ? made("em", {}, name) : "", made("b", {}, small ? BigInt.asIntN(64, value).toString() : hex(value)));
  });
  const flags = [..."NZCV"].map((it, n) => (now.nzcv[n] === "1" ? it : it.toLowerCase())).join("");
  cells.push(made("div", { class: `cell${before && before.nzcv !== now.nzcv ? " changed" : ""}`, title: "flags: a capital letter is 1" }, made("span", {}, "flags"), made("b", {}, flags)));
  $("scalars").replaceChildren(...cells);
}

// ---- memory

// The address of the fault that ends the run, once the run has come to it.
function faultPlace(model) {
  return model.isEnd && model.ran.stop && model.ran.stop.at ? BigInt(model.ran.stop.at) : null;
}

function elementCell(window, k, bytes, isText) {
  const { size, type, name, at } = window, part = bytes.slice(k * size, k * size + size), place = at + BigInt(k * size), cell = made("i", { title: `${name}[${k}] at ${hex(place)}` });
  if (part.includes("--")) {
    cell.classList.add("none");
    cell.title += ": not mapped";
    return cell;
  }
  const text = valueText(part.join(""), 0, size, type[0] === "i"), code = parseInt(part[0], 16), letter = code > 32 && code < 127 ? String.fromCharCode(code) : code === 32 ? "\u2423" : "·";
  cell.textContent = isText ? letter : text.length <= { 1: 4, 2: 5, 4: 6, 8: 10 }[size] ? text : "·";
  cell.title += `: ${text}`;
  return cell;
}

function arrayBox(model, window, bytes, touched) {
  const { size, type, name, at, count } = window, { access } = model, fault = faultPlace(model);
  const isTable = model.kernel.items.some((it) => it.kind === "read" && it.name === name && !it.isStream);
  const plain = bytes.filter((it) => it !== "--").map((it) => parseInt(it, 16)), letters = plain.filter((it) => it >= 32 && it < 127).length;
  const isText = size === 1 && plain.some((it) => it > 64) && letters >= plain.length * 0.7, columns = isText ? 32 : size <= 2 ? 16 : size === 4 ? 16 : 8;
  const meets = (it, place, length) => it < place + BigInt(size) && place < it + BigInt(length);
  const cells = Array.from({ length: count }, (_, k) => {
    const place = at + BigInt(k * size), cell = elementCell(window, k, bytes, isText);
    if (touched.read.has(place)) cell.classList.add("past-read");
    if (touched.written.has(place)) cell.classList.add("past-written");
    if (access && access.places.some((it) => meets(it, place, access.size))) cell.classList.add(access.writes ? "written" : "read");
    if (fault !== null && meets(fault, place, 1)) cell.classList.add("fault"), (cell.title += `: the run stops here, at a ${model.ran.stop.kind}`);
    if (BigInt(k) >= model.count && !isTable) cell.classList.add("outside");
    return cell;
  });
  const note = model.count > BigInt(count) ? `, the first ${count}` : "";
  return made("div", { class: "array" }, made("div", { class: "name" }, made("b", {}, name), `: [${type}] at ${hex(at)}${note}`), made("div", { class: "elements", style: `--columns: ${columns}` }, ...cells));
}

function showArrays(model) {
  const touched = { read: new Set(), written: new Set() };
  model.film.slice(0, model.at).forEach(({ access: it }) => it && it.places.forEach((at) => touched[it.writes ? "written" : "read"].add(at)));
  $("arrays").replaceChildren(...model.windows.map((window, n) => arrayBox(model, window, model.states.now.mem[n].bytes, touched)));
}

// A bar for each range of pages: what the run reads and writes of it, and what the last step did.
function pageBar({ at, pages, use }, all, { access, fault }) {
  const length = BigInt(pages) * 4096n, svg = document.createElementNS("http://www.w3.org/2000/svg", "svg"), seen = new Set();
  svg.setAttribute("viewBox", "0 0 1024 12");
  svg.setAttribute("preserveAspectRatio", "none");
  const bar = (it, opacity, isNow) => {
    if (it.at + BigInt(it.size) <= at || it.at >= at + length) return "";
    const x = (Number(it.at - at) / Number(length)) * 1024, width = Math.max(isNow ? 3 : 1.5, (it.size / Number(length)) * 1024);
    return `<rect x="${x.toFixed(1)}" y="0" width="${width.toFixed(1)}" height="12" fill="var(--${it.kind})" opacity="${opacity}"/>`;
  };
  const soft = all.filter((it) => !seen.has(`${it.kind}${it.at}`) && seen.add(`${it.kind}${it.at}`)).map((it) => bar(it, 0.25, false));
  const strong = access ? access.places.map((it) => bar({ at: it, size: access.size, kind: access.writes ? "write" : "read" }, 1, true)) : [];
  svg.innerHTML = [...soft, ...strong, fault === null ? "" : bar({ at: fault, size: 1, kind: "bad" }, 1, true)].join("");
  return made("div", { class: "page", title: `${pages} page${pages > 1 ? "s" : ""} from ${hex(at)}` }, `${hex(at)} ${use}`, svg);
}

function showPages(model) {
  const maps = [...model.run.map.matchAll(/^map (\S+) (\d+) (rw?)$/gm)].map((it) => ({ at: number(it[1]), pages: Number(it[2]), use: it[3] })).filter((it) => it.at !== null);
  const all = model.film.flatMap(({ access: it }) => (it ? it.places.map((at) => ({ at, size: it.size, kind: it.writes ? "write" : "read" })) : []));
  const fault = faultPlace(model);
  $("pages").replaceChildren(...maps.slice(0, 8).map((it) => pageBar(it, all, { access: model.access, fault })));
}

// ---- the strip: a band of the parts, and below it what is read and written of each array

function drawTimeline() {
  const { model } = S, canvas = $("timeline"), ratio = window.devicePixelRatio || 1, width = canvas.clientWidth, early = model.early && model.early.places;
  const tall = 20 + (early ? 16 : 0) + Math.max(1, model.windows.length) * 24, steps = model.film, most = Math.max(1, steps.length, early ? early.length : 0);
  canvas.style.height = `${tall}px`;
  canvas.width = width * ratio;
  canvas.height = tall * ratio;
  for (const [name, value] of Object.entries({ valuemin: 0, valuemax: model.ran.steps, valuenow: model.at, valuetext: `step ${model.at} of ${model.ran.steps}` })) canvas.setAttribute(`aria-${name}`, value);
  const style = getComputedStyle(document.documentElement), draw = canvas.getContext("2d"), span = (width - FRAME) / most;
  const strip = { draw, span, width, colour: (name) => style.getPropertyValue(`--${name}`).trim(), wide: (least) => Math.max(span - (span > 4 ? 1 : 0), least) };
  draw.scale(ratio, ratio);
  draw.font = "11px ui-monospace, 'DejaVu Sans Mono', monospace";
  draw.textBaseline = "middle";
  drawBand(strip, 2, "step", steps.map((it) => it.row), model.at);
  if (early) drawBand(strip, 18, "early", early.map((it) => model.byPlace.get(it)), most);
  model.windows.forEach((it, k) => drawAccesses(strip, it, 20 + (early ? 16 : 0) + k * 24, steps, model.at));
  draw.globalAlpha = 1;
  draw.fillStyle = strip.colour("ink");
  if (model.at <= most) draw.fillRect(FRAME + model.at * span - 0.75, 0, 1.5, tall);
}

function drawBand({ draw, span, colour, wide }, upper, name, rows, now) {
  rows.forEach((row, n) => {
    draw.fillStyle = colour(`s-${row ? row.part : "entry"}`);
    draw.globalAlpha = n < now ? 1 : 0.35;
    draw.fillRect(FRAME + n * span, upper, wide(0.6), 12);
  });
  draw.globalAlpha = 1;
  draw.fillStyle = colour("soft");
  draw.fillText(name, 0, upper + 6);
}

function drawAccesses({ draw, span, width, colour, wide }, window, upper, steps, now) {
  const { name, size } = window;
  draw.globalAlpha = 1;
  draw.fillStyle = colour("wash");
  draw.fillRect(FRAME, upper, width - FRAME, 20);
  draw.fillStyle = colour("soft");
  draw.fillText(name.length > 6 ? name.slice(0, 5) + "…" : name, 0, upper + 10);
  const own = (it) => it.access && it.row && it.row.array === name, places = steps.flatMap((it) => (own(it) ? it.access.places : []));
  if (!places.length) return;
  const low = places.reduce((a, b) => (a < b ? a : b)), high = places.reduce((a, b) => (a > b ? a : b)), range = Math.max(Number(high - low) + size, 1);
  steps.forEach((it, n) => {
    if (!own(it)) return;
    draw.fillStyle = colour(it.access.writes ? "write" : "read");
    draw.globalAlpha = n < now ? 1 : 0.35;
    for (const at of it.access.places) {
      const y = upper + (Number(at - low) / range) * 20, height = Math.max((size / range) * 20, 1);
      draw.fillRect(FRAME + n * span, y, wide(1.2), Math.max(height - (height > 3 ? 0.5 : 0), 0.8));
    }
  });
}

function fromTimeline(event) {
  const { model } = S;
  if (!model.film) return;
  const box = $("timeline").getBoundingClientRect(), most = Math.max(1, model.film.length, model.early && model.early.places ? model.early.places.length : 0);
  const steps = Math.round(((event.clientX - box.left - FRAME) / (box.width - FRAME)) * most);
  moveTo(Math.max(0, Math.min(model.film.length, steps)));
}

function moveTo(steps) {
  const { model } = S;
  if (model.film && steps !== model.at && steps >= 0 && steps <= model.ran.steps) showState(steps, model.at);
}

function goOn() {
  const { model } = S;
  if (model.film && model.at < model.ran.steps) showState(model.goOn().steps, model.at);
}
