// What the reader does, and how the page begins.
const REFUSED = "refused";
/** @param {string} kind @param {Source | null} source */
function take(kind, source) {
  const bytes = source?.bytes ?? new Uint8Array(0);
  state.files[kind] = source;
  if (kind === "map") {
    state.grid = readMap(bytes);
    drawWalls();
    fit();
  }
  if (kind === "scen") state.rows = readRows(bytes);
  if (kind !== "plan") return;
  const text = textOf(bytes);
  [state.plan, state.chosen] = [readPlan(text), null];
  if ($("text").value !== text) $("text").value = text.length < 2e5 ? text : "";
  stay(0);
}
/** @param {FileList} files */
async function openAll(files) {
  let note = "";
  for (const file of files) {
    const bytes = new Uint8Array(await file.arrayBuffer()), head = textOf(bytes.subarray(0, 4));
    const kind = { type: "map", vers: "scen" }[head] ?? /\.(map|scen)$/.exec(file.name)?.[1] ?? "plan";
    if (kind === "plan") note = takePlan({ name: file.name, bytes });
    else take(kind, { name: file.name, bytes });
    if (note === REFUSED) return;
  }
  await judge(note);
}
/** Takes a plan of any format that is read here; says of which, or why it is none. */
function takePlan(/** @type {Source} */ source) {
  const none = (/** @type {string} */ title, /** @type {string} */ line, /** @type {string} */ note) => {
    engine.stop();
    take("plan", null);
    state.fault = null;
    show("bad", title, line, note);
    return REFUSED;
  };
  try {
    const { source: plan, note } = asPlan(source);
    if (!plan) return none("Not valid", "no plan given", `${source.name} has ${note}.`);
    take("plan", plan);
    if (state.plan) $("count").value = state.plan.paths.length;
    return note;
  } catch (error) {
    return none("Refused", /** @type {Error} */ (error).message, firstOf(source.name));
  }
}
/** Saves a file by the browser. */
function save(/** @type {string | undefined} */ download, /** @type {Blob} */ contents) {
  const href = URL.createObjectURL(contents);
  Object.assign(document.createElement("a"), { href, download }).click();
  URL.revokeObjectURL(href);
}
/** Saves what the view shows, by the name of the plan or the map. */
function savePicture() {
  const named = state.files.plan ?? state.files.map;
  if (!named) return;
  draw();
  view.toBlob((contents) => { if (contents) save(named.name.replace(/\.[^.]*$/, "") + ".png", contents); });
}
/** All beside the canvas that depends on the state. */
function refresh() {
  const { files, grid, plan, rows, fault, solving } = state;
  for (const kind of ["map", "scen", "plan"]) $(`name-${kind}`).textContent = files[kind]?.name ?? "";
  $("info-map").textContent = grid ? `${grid.width} × ${grid.height}` : "";
  $("info-scen").textContent = files.scen ? `${rows.length} rows` : "";
  $("info-plan").textContent = plan ? `${plan.end} steps` : "";
  $("why").textContent = solverLacks();
  $("solve").disabled = solverLacks() !== "";
  $("solve").textContent = solving ? "Stop" : "Solve";
  $("save").disabled = !files.plan;
  $("picture").disabled = !files.map;
  $("time").max = plan?.end ?? 0;
  $("time").disabled = $("play").disabled = $("who").hidden = !plan;
  $("pin").hidden = $("go").hidden = !fault;
  $("pin").style.left = `calc(8px + ${(fault?.at ?? 0) / Math.max(1, plan?.end ?? 0)} * (100% - 16px))`;
  $("moving").setAttribute("d", plan ? onTheWay(plan) : "");
  drawDelays();
  $("agents").innerHTML = plan?.lasts.map(chip).join("") ?? "";
  painted = "";
  redraw();
}
/** The button that chooses an agent. */
const chip = (/** @type {number} */ cost, /** @type {number} */ i) => `<button aria-pressed="${i === state.chosen}">` +
  `<i style="background:${hues[i]}"></i>${i} <small>${cost}</small></button>`;
/** The outline of how many agents are on their way at each time, in a square of 1 by 1. */
function onTheWay(/** @type {Plan} */ { lasts, end }) {
  const columns = Math.min(end, 300), late = [...lasts].sort((a, b) => a - b);
  let outline = "M0 1", arrived = 0;
  for (let column = 0; column < columns; column++) {
    while (late[arrived] <= (column * end) / columns) arrived++;
    outline += `V${0.1 + (0.9 * arrived) / lasts.length}H${(column + 1) / columns}`;
  }
  return outline + "V1Z";
}
/** @param {number | null} i */
function choose(i) {
  state.chosen = state.chosen === i ? null : i;
  refresh();
}
/** @param {"trails" | "goals" | "delays"} what */
function flip(what) {
  $(what).setAttribute("aria-pressed", String(state[what] = !state[what]));
  refresh();
}
/** @type {Record<string, () => unknown>} */
const keys = {
  " ": () => setPlaying(!state.playing), ArrowLeft: () => stay(Math.ceil(state.time) - 1), Home: () => stay(0),
  ArrowRight: () => stay(Math.floor(state.time) + 1), End: () => stay(Infinity), c: goToFault, s: solve,
  t: () => flip("trails"), g: () => flip("goals"), d: () => flip("delays"), p: savePicture,
  "[": () => pace(-1), "]": () => pace(1), "+": () => zoom(1.25),
  "=": () => zoom(1.25), "-": () => zoom(0.8), 0: fit, Escape: () => choose(null),
  "⇧ArrowLeft": () => slide(-60, 0), "⇧ArrowRight": () => slide(60, 0), "⇧ArrowUp": () => slide(0, -60),
  "⇧ArrowDown": () => slide(0, 60),
};
const buttons = { play: " ", back: "ArrowLeft", step: "ArrowRight", solve: "s", trails: "t", goals: "g",
  delays: "d", picture: "p", pin: "c", go: "c", in: "+", out: "-", fit: "0" };
for (const [id, key] of Object.entries(buttons)) $(id).onclick = () => keys[key]();
addEventListener("keydown", (event) => {
  const at = /** @type {HTMLElement} */ (event.target), { key } = event;
  const act = keys[key.length === 1 ? key.toLowerCase() : (event.shiftKey ? "⇧" : "") + key];
  if (!act || event.ctrlKey || event.metaKey || event.altKey) return;
  if (at.matches(`textarea, select, input[type=number]${key === " " ? ", button, summary, input" : ""}`)) return;
  act();
  event.preventDefault();
});
$("time").oninput = () => stay(Number($("time").value));
$("count").onchange = $("rule").onchange = () => judge();
$("save").onclick = () => save(state.files.plan?.name, new Blob([state.files.plan?.bytes ?? ""]));
$("agents").onclick = (/** @type {any} */ { target }) => {
  const i = [...$("agents").children].indexOf(target.closest("button"));
  if (i >= 0) choose(i);
};
$("text").oninput = () => {
  take("plan", { name: "edited.plan", bytes: bytesOf($("text").value) });
  judge();
};
for (const kind of ["map", "scen", "plan"]) {
  $(`file-${kind}`).onchange = () => openAll($(`file-${kind}`).files).then(() => { $(`file-${kind}`).value = ""; });
}
window.ondragover = window.ondragleave = window.ondrop = (event) => {
  event.preventDefault();
  $("drop").hidden = event.type !== "dragover";
  if (event.type === "drop" && event.dataTransfer) openAll(event.dataTransfer.files);
};
/** @type {Map<number, PointerEvent>} */ const held = new Map();
let moved = 0;
view.onpointerdown = (event) => {
  view.setPointerCapture(event.pointerId);
  held.set(event.pointerId, event);
  moved = 0;
};
view.onpointermove = (event) => {
  const old = held.get(event.pointerId), other = [...held.values()].find((one) => one.pointerId !== event.pointerId);
  if (!old) return;
  const [x, y] = [old.offsetX - event.offsetX, old.offsetY - event.offsetY], { offsetX, offsetY } = other ?? old;
  const far = (/** @type {PointerEvent} */ one) => Math.hypot(one.offsetX - offsetX, one.offsetY - offsetY);
  if (other) zoom(far(event) / Math.max(1, far(old)), (event.offsetX + offsetX) / 2, (event.offsetY + offsetY) / 2);
  slide(x / held.size, y / held.size);
  moved += Math.hypot(x, y);
  held.set(event.pointerId, event);
};
view.onpointerup = view.onpointercancel = ({ pointerId, offsetX, offsetY }) => {
  held.delete(pointerId);
  const far = agents().map(([x, y]) => onScreen(x, y)).map(([x, y]) => Math.hypot(x - offsetX, y - offsetY));
  const i = far.findIndex((one) => one < Math.max(9, camera.scale * 0.45));
  if (moved < 5) choose(i < 0 ? null : i);
};
view.onwheel = (event) => {
  event.preventDefault();
  zoom(Math.exp(-event.deltaY * (event.ctrlKey ? 0.01 : 0.0015)), event.offsetX, event.offsetY);
};
dark.onchange = () => {
  readColours();
  drawWalls();
  refresh();
};
new ResizeObserver(redraw).observe(view);
(async () => {
  /** @type {{ files: string[][], agents: number, rule: boolean, verdict: [number, string] | null }} */
  const { files, agents, rule, verdict } = JSON.parse($("given").textContent);
  readColours();
  for (const [kind, name, text] of files) take(kind, { name, bytes: bytesOf(text) });
  [$("count").value, $("rule").checked] = [agents, rule];
  await engine.load();
  $(engine.size ? "with-module" : "with-verdict").hidden = false;
  if (verdict) tell(...verdict, "Judged by the proved checker as this page was made.");
  else await (engine.module ? solve() : judge());
  document.documentElement.dataset.ready = "yes";
})();
