// The verdict, and the search.
const MARKS = { good: "m3 8.5 3.2 3.2L13 4.8", bad: "m4 4 8 8M12 4l-8 8", busy: "M8 4v4l3 2", idle: "M5 8h6" };
const OLD = "It lacks 64-bit memory for WebAssembly, which Chromium 133, Firefox 134 and later ones have: no verdict.";
const NONE = "This page was made with one verdict, and has no checker for another.";
/** @param {keyof typeof MARKS} look @param {string} title @param {string} line @param {string} note */
function show(look, title, line, note) {
  $("verdict").className = `card ${look}`;
  $("mark").setAttribute("d", MARKS[look]);
  [$("title").textContent, $("line").textContent, $("note").textContent] = [title, line, note];
  refresh();
}
const spent = (/** @type {number} */ ms) => (ms < 1000 ? `${Math.ceil(ms)} ms` : `${(ms / 1000).toFixed(1)} s`);
const firstOf = (/** @type {string | undefined} */ name) => `${name}: this is the first fault of that file.`;
/** Of which file a refusal is, and where none is: of which number. */
function causeOf(/** @type {string} */ line) {
  const number = parseInt(line);
  const long = { map: "map", scenario: "scen", plan: "plan" }[line.replace("53 too long ", "")];
  const kind = long ?? (number < 10 ? "map" : number < 30 ? "scen" : number < 40 ? "plan" : "");
  if (number === 21) return "Ask for 1 to 1,000 agents.";
  return kind ? firstOf(state.files[kind]?.name) : "Ask for another number.";
}
/** Why nothing can be solved; empty where it can. */
function solverLacks() {
  if (!engine.size) return "This page can't solve: it was made with one plan.";
  if (!engine.module) return "This browser can't solve: it lacks 64-bit memory.";
  return state.files.map && state.files.scen ? "" : "Solve needs a map and a scenario.";
}
/** Says what the checker answered. */
function tell(/** @type {number} */ status, /** @type {string} */ line, /** @type {string} */ note) {
  if (status === 1 && state.plan) state.fault = readFault(line, state.plan);
  if (status === 0) show("good", `Valid, cost ${line.split(" ")[1]}`, line, note);
  else if (line.startsWith("61")) show("idle", "Another number of agents", line, other(line.split(" ")[3]));
  else if (status === 1) show("bad", line.startsWith("66") ? "A conflict" : "Not valid", line, note);
  else if (status === STOPPED) show("idle", "Stopped", "", "");
  else if (status === FAILED) show("bad", "No verdict", line, "The page or the browser failed.");
  else if (status === 4) show("bad", "Out of memory", line, "Take fewer agents, or a limit on nodes.");
  else show("bad", "Refused", line, causeOf(line));
}
const other = (/** @type {string} */ count) => `The plan has ${count}: enter ${count} above, or solve anew.`;
/** Judges the plan by the proved checker, if all three files are there. */
async function judge(/** @type {string} */ note = "") {
  const { map, scen, plan } = state.files;
  engine.stop();
  state.fault = null;
  if (engine.size && !engine.module) return show("idle", "This browser can't run the checker", "", OLD);
  if (!engine.module) return show("idle", "No verdict", "", NONE);
  if (!map || !scen) return show("idle", "No verdict yet", "", "Give a map, a scenario and a plan.");
  if (!plan) return show("idle", "No verdict yet", "", "Give a plan, or let the solver find one.");
  refresh();
  const numbers = CALLS.mapf_check(whole("count"), $("rule").checked);
  const { status, text, ms } = await engine.call("mapf_check", [map.bytes, scen.bytes, plan.bytes], numbers);
  if (status !== STOPPED) tell(status, text.trim(), `${note}Judged in ${spent(ms)} by the proved checker.`);
}
/** Solves the instance, without the plan that was there; or stops. */
async function solve() {
  const { map, scen } = state.files, began = performance.now();
  if (state.solving) return engine.stop();
  if (!map || !scen || !engine.module) return;
  const any = $("any").checked, call = any ? "mapf_solve_any" : "mapf_solve";
  const numbers = CALLS[call](whole("count"), 1000000, whole("nodes"), $("rule").checked);
  const passed = () => spent(performance.now() - began);
  take("plan", null);
  [state.fault, state.solving] = [null, true];
  show("busy", "Solving", "", "No one can tell how long a search takes.");
  const ticking = setInterval(() => { $("line").textContent = passed(); }, 200);
  const { status, text, pages } = await engine.call(call, [map.bytes, scen.bytes], numbers);
  clearInterval(ticking);
  state.solving = false;
  const line = text.trim(), bound = line.split(" ").pop();
  if (status === 6) return show("idle", "Gave up", line, `No valid plan costs less than ${bound}.`);
  if (status === 1) return show("bad", "No plan", line, `No valid plan costs ${bound} at most.`);
  if (status !== 0) return tell(status, line, "");
  take("plan", { name: "solved.plan", bytes: bytesOf(text) });
  const which = any ? "An optimum, whichever of several. " : "";
  await judge(`${which}No valid plan costs less. Found in ${passed()}, ${Math.round(pages / 16)} MiB. `);
  if (!matchMedia("(prefers-reduced-motion: reduce)").matches) setPlaying(true);
}
