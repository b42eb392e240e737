// Plans as EECBS, CBSH2-RTC, MAPF-LNS, LaCAM, PIBT and MAPF-visualizer write them, made texts of plans.
/** @typedef {number[][]} Path  the x and y at each time */
/** Ends the reading at a line, from 1. @returns {never} */
const unfit = (/** @type {number} */ line, /** @type {string} */ wanted) => {
  throw new RangeError(`line ${line}: no ${wanted}`);
};
const numbers = (/** @type {string} */ text) => (text.match(/\d+/g) ?? []).map(Number);
/** A file of another planner as a text of a plan; any other file as it is.
 * @param {Source} source @returns {{ source: Source | null, note: string }} no source: it says that it has no plan */
function asPlan(source) {
  const lines = textOf(source.bytes).split(/\r?\n/), name = source.name.replace(/\.[^.]*$/, "") + ".plan";
  if (lines[lines.length - 1] === "") lines.pop();
  const begins = lines.indexOf("solution="), stated = (/** @type {string} */ key) =>
    lines.slice(0, begins).find((line) => line.startsWith(key + "="))?.slice(key.length + 1);
  /** @param {Path[]} paths @param {string} by @param {string} [cost] */
  const read = (paths, by, cost) =>
    ({ source: { name, bytes: bytesOf(planText(paths, cost)) }, note: `Read as ${by} writes it. ` });
  if (lines[0]?.startsWith("Agent 0:")) return read(lines.map(agentPath), "EECBS or LNS");
  if (lines[0]?.startsWith("0:(")) return read(timedPaths(lines, 0), "MAPF-visualizer");
  if (begins < 0 || !/^\w+=/.test(lines[0])) {
    return lines.includes("solved=0") ? { source: null, note: "solved=0" } : { source, note: "" };
  }
  if (stated("solved") === "0") return { source: null, note: "solved=0" };
  const paths = timedPaths(lines, begins + 1);
  for (const [key, found] of [["agents", paths.length], ["makespan", lines.length - begins - 2]]) {
    if (![undefined, String(found)].includes(stated(String(key)))) unfit(begins + 1, `${key}=${found} before it`);
  }
  return read(paths, "LaCAM", stated("soc"));
}
/** `Agent 0: (row,column)->(row,column)->`, or without the blank. */
function agentPath(/** @type {string} */ line, /** @type {number} */ agent) {
  const head = /^Agent \d+: ?/.exec(line)?.[0] ?? "", steps = line.slice(head.length).match(/\(\d{1,9},\d{1,9}\)->/g);
  if (head.trim() !== `Agent ${agent}:` || steps?.join("") !== line.slice(head.length)) {
    return unfit(agent + 1, `Agent ${agent}: (row,column)->..`);
  }
  return steps.map((step) => numbers(step).reverse());
}
/** Lines `time:(x,y),(x,y),` of all agents, which may have orientations.
 * @param {string[]} lines @param {number} from */
function timedPaths(lines, from) {
  /** @type {Path[]} */ const paths = [];
  lines.slice(from).forEach((line, time) => {
    const places = line.match(/\(\d{1,9},\d{1,9}(,[XY]_(MINUS|PLUS))?\)/g) ?? [];
    const isWhole = `${time}:${places.join(",")}` === line.replace(/,$/, "");
    if (!isWhole || !places.length || (time && places.length !== paths.length)) {
      unfit(from + time + 1, `${time}:(x,y),(x,y), of ${time ? paths.length : "all"} agents`);
    }
    places.forEach((place, agent) => (paths[agent] ??= []).push(numbers(place)));
  });
  return paths.length ? paths : unfit(from + 1, "0:(x,y),(x,y),");
}
/** The text; what stands behind an agent's last arrival is cut. A cost that was stated stays, and is judged.
 * @param {Path[]} paths @param {string} [stated] */
function planText(paths, stated) {
  const cut = paths.map((path) => {
    let last = path.length - 1;
    while (last > 0 && String(path[last - 1]) === String(path[last])) last--;
    return path.slice(0, last + 1);
  });
  const cost = stated ?? cut.reduce((sum, path) => sum + path.length - 1, 0);
  return [`plan ${cut.length} ${cost}`, ...cut.map((path) => path.join(" ")), ""].join("\n");
}
