// The page: its parts put together, its address, its keys, and how it begins.
"use strict";

const MEMORY_MOST = "1 GiB";
const NEEDS = "This page runs the proved program as WebAssembly with 64-bit memories, which this browser has not. Chrome and Edge have them from version 133, and Firefox from 134, as far as their makers say; it was tried in Chromium 156.";

let timer = null;
function later(work) {
  clearTimeout(timer);
  timer = setTimeout(() => guarded(work), 120);
}

// Does some work; where the program stops in it, a new machine takes its place and the page says so.
function guarded(work) {
  try {
    work();
  } catch (fault) {
    console.error(fault);
    const isRecorded = S.model && S.model.program.isRecorded;
    $("banner").textContent = isRecorded ? `${NEEDS} Below is a recorded run of axpy, step by step; nothing else can be asked of it.` : `The program stopped: ${fault.message}. It was started anew.`;
    if (S.model && !isRecorded) S.model.program.svec.begin();
  }
}

// ---- the address: the kernel and the call

function linkText() {
  const { model } = S, wanted = new URLSearchParams(), example = EXAMPLES[$("example").value];
  if (example && laidOut(example.kernel) === $("text").value) wanted.set("example", example.name);
  else wanted.set("kernel", $("text").value);
  if (!example || example.map !== $("map").value) wanted.set("map", $("map").value);
  if (!example || String(example.args) !== String(model.args)) model.args.forEach((it) => wanted.append("arg", it));
  wanted.set("vl", model.vl);
  wanted.set("step", model.at);
  if (model.every) wanted.set("every", model.every);
  if (model.breaks.size) wanted.set("break", [...model.breaks].map((it) => it.toString(16)).join("."));
  return `#${wanted}`;
}

let link = null;
function keepLink() {
  clearTimeout(link);
  link = setTimeout(() => history.replaceState(null, "", linkText()), 200);
}

// Opens what an address holds.
function openLink(text) {
  const wanted = new URLSearchParams(text.slice(1)), name = wanted.get("example") || "axpy", { model } = S;
  const n = Math.max(0, EXAMPLES.findIndex((it) => it.name === name)), example = EXAMPLES[n];
  $("example").value = n;
  const has = (key, other) => (wanted.has(key) ? wanted.get(key) : other);
  model.breaks = new Set(has("break", "").split(".").filter(Boolean).map((it) => parseInt(it, 16)));
  model.every = Number(has("every", 0)) || null;
  $("isearly").checked = !!model.every;
  if (model.every) $("every").value = model.every;
  const vl = Number(has("vl", example.vl || 128));
  const step = wanted.has("step") ? Number(wanted.get("step")) || 0 : wanted.has("kernel") ? 0 : example.step || 0;
  open({ kernel: has("kernel", null), example, map: has("map", example.map), args: wanted.has("arg") ? wanted.getAll("arg") : wanted.has("kernel") ? [] : example.args, vl: LENGTHS.includes(vl) ? vl : 128, step });
}

function open({ kernel, example, map, args, vl, step }) {
  const { model } = S;
  model.at = step;
  model.vl = vl;
  model.args = args ? args.slice() : [];
  $("range").dataset.own = "";
  $("text").value = kernel === null || kernel === undefined ? laidOut(example.kernel) : kernel;
  $("map").value = map;
  kernelChanged();
}

function pick(example) {
  S.model.breaks.clear();
  S.model.every = null;
  $("isearly").checked = false;
  open({ example, map: example.map, args: example.args, vl: example.vl || 128, step: example.step || 0 });
}

// ---- what is changed

function kernelChanged() {
  if (showKernel()) return keepLink();
  showArgs();
  callChanged();
}

// (while a kernel is typed, its class and its code come first, and its run a moment later)
function kernelTyped() {
  repaint();
  guarded(() => {
    if (showKernel()) return keepLink();
    showArgs();
    later(callChanged);
  });
}

function earlyChanged() {
  const every = Number($("every").value);
  S.model.every = $("isearly").checked && Number.isInteger(every) && every > 0 ? every : null;
  if (S.model.lengths) lengthChanged();
}

function keyed(event) {
  const { model } = S, inListing = event.target === $("listing");
  if (/^(TEXTAREA|INPUT|SELECT)$/.test(event.target.tagName) || event.ctrlKey || event.metaKey || event.altKey || !model.kernel) return;
  const here = () => (inListing && S.cursor) || model.next, end = () => model.ran && moveTo(model.ran.steps);
  const work = { ArrowLeft: () => moveTo(model.at - 1), ArrowRight: () => moveTo(model.at + 1), Home: () => moveTo(0), End: end, g: goOn, b: () => here() && toggleBreak(here()) }[event.key];
  const inList = inListing ? { ArrowUp: () => moveCursor(-1), ArrowDown: () => moveCursor(1), Enter: () => here() && toggleBreak(here()), " ": () => here() && toggleBreak(here()) }[event.key] : null;
  if (event.key === "Enter" && event.target.tagName === "BUTTON") return;
  if (work || inList) (event.preventDefault(), guarded(work || inList));
}

function listen() {
  const on = (id, kind, work) => $(id).addEventListener(kind, (event) => guarded(() => work(event)));
  on("example", "change", (event) => pick(EXAMPLES[event.target.value]));
  $("text").addEventListener("input", kernelTyped);
  listenToListing();
  document.addEventListener("selectionchange", caretMoved);
  on("layout", "click", () => (($("text").value = laidOut($("text").value)), kernelChanged()));
  $("map").addEventListener("input", () => later(callChanged));
  on("costof", "change", costChanged);
  on("dumps", "toggle", showDump);
  $("range").addEventListener("input", () => (($("range").dataset.own = "yes"), later(showDump)));
  on("fill", "click", () => (($("map").value = S.model.filledMap()), callChanged()));
  on("vl", "input", (event) => ((S.model.vl = 128 * event.target.value), lengthChanged()));
  on("plot", "click", (event) => event.target.dataset.n && ((S.model.vl = 128 * (Number(event.target.dataset.n) + 1)), lengthChanged()));
  on("isearly", "change", earlyChanged);
  $("every").addEventListener("input", () => later(earlyChanged));
  on("first", "click", () => moveTo(0));
  on("back", "click", () => moveTo(S.model.at - 1));
  on("step", "click", () => moveTo(S.model.at + 1));
  on("go", "click", goOn);
  on("end", "click", () => moveTo(S.model.ran.steps));
  on("timeline", "pointerdown", (event) => ($("timeline").setPointerCapture(event.pointerId), fromTimeline(event)));
  on("timeline", "pointermove", (event) => event.buttons && fromTimeline(event));
  on("link", "click", () => (history.replaceState(null, "", linkText()), navigator.clipboard && navigator.clipboard.writeText(location.href).catch(() => null), ($("link").textContent = "Copied"), setTimeout(() => ($("link").textContent = "Copy link"), 1500)));
  document.addEventListener("keydown", keyed);
  window.addEventListener("hashchange", () => guarded(() => openLink(location.hash)));
  window.addEventListener("resize", () => guarded(() => (repaint(), S.model.run && S.model.film && S.cost && (showPlot(), drawTimeline()))));
}

// ---- the beginning

// The program, or where the browser cannot have it the recorded example.
async function programOf() {
  try {
    const bytes = Uint8Array.from(atob(SVEC_WASM), (it) => it.charCodeAt(0)), svec = await Svec.made(bytes);
    $("about").textContent = `program ${(bytes.length / 1024).toFixed(0)} KiB, memory up to ${MEMORY_MOST}`;
    return new Program(svec);
  } catch (fault) {
    $("banner").textContent = NEEDS;
    $("about").textContent = "the program does not run here";
    if (typeof RECORDED_CALLS === "undefined") throw fault;
    $("banner").textContent = `${NEEDS} Below is a recorded run of axpy, step by step; nothing else can be asked of it.`;
    document.body.classList.add("recorded");
    return new Replay(RECORDED_CALLS);
  }
}

async function begin() {
  S.model = new Model(await programOf());
  EXAMPLES.forEach((it, n) => $("example").append(made("option", { value: n }, it.title || it.name)));
  listen();
  guarded(() => openLink(S.model.program.isRecorded ? "" : location.hash));
  document.body.dataset.ready = "yes";
}

begin();
