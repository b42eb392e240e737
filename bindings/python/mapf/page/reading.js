// Files, read loosely: for the picture alone. The verdict is the proved checker's, on the same bytes.
/** @typedef {{ width: number, height: number, free: Uint8Array }} Grid  free: 1 where agents may be, row by row */
/** @typedef {{ paths: Int32Array[], lasts: number[], end: number }} Plan  paths[i]: x0, y0, ..; lasts[i]: its end */
/** @typedef {{ agents: number[], middle: [number, number], at: number, says: string }} Fault  at: when to look */
/** @typedef {{ name: string, bytes: Uint8Array }} Source */
const $ = (/** @type {string} */ id) => /** @type {any} */ (document.getElementById(id));
const textOf = (/** @type {Uint8Array} */ bytes) => new TextDecoder("latin1").decode(bytes);
/** The bytes of a text, one for each character; 255 where it has none. */
function bytesOf(/** @type {string} */ text) {
  const bytes = new Uint8Array(text.length);
  for (let i = 0; i < text.length; i++) bytes[i] = Math.min(255, text.charCodeAt(i));
  return bytes;
}
/** @param {Uint8Array} bytes @returns {Grid | null} */
function readMap(bytes) {
  const lines = textOf(bytes).split(/\r?\n/);
  const [height, width] = ["height", "width"].map((side, i) => Number(lines[i + 1]?.split(/\s+(?=\d)/)[1]));
  if (!(height > 0 && width > 0 && width <= 2048 && height <= 2048)) return null;
  const free = new Uint8Array(width * height);
  for (let i = 0; i < free.length; i++) free[i] = /[.G]/.test(lines[4 + Math.floor(i / width)]?.[i % width]) ? 1 : 0;
  return { width, height, free };
}
/** The starts and goals of a scenario's rows: start x and y, goal x and y. */
function readRows(/** @type {Uint8Array} */ bytes) {
  const lines = textOf(bytes).split(/\r?\n/).slice(1).filter((line) => line.trim());
  return lines.map((line) => line.trim().split(/\s+/).slice(-5, -1).map(Number));
}
/** @param {string} text @returns {Plan | null} */
function readPlan(text) {
  const [head, ...lines] = text.split("\n");
  const paths = lines.filter(Boolean).slice(0, 1000).map((line) => Int32Array.from(line.split(/[ ,]/), Number));
  if (!/^plan \d+ \d+$/.test(head) || paths.length === 0 || paths.some((path) => path.length % 2)) return null;
  const lasts = paths.map((path) => path.length / 2 - 1);
  return { paths, lasts, end: Math.max(...lasts) };
}
/** @param {string} line a verdict's @param {Plan} plan @returns {Fault | null} null where it has no place on the map */
function readFault(line, plan) {
  const [number, kind, ...rest] = line.split(" "), time = Number(rest[rest.length - 1]);
  const [a, b, x, y, toX, toY] = (rest.join(" ").match(/\d+/g) ?? []).map(Number), last = plan.lasts[a];
  /** @type {[number, number]} */ const middle = kind === "swapping" ? [(x + toX) / 2, (y + toY) / 2] : [x, y];
  const fault = (/** @type {number} */ at, /** @type {string} */ says, agents = [a, b]) =>
    ({ agents, middle: agents.length === 2 ? middle : place(plan, a, at), at, says: `${says}, time ${Math.ceil(at)}` });
  if (number === "62") return fault(0, `${a} starts elsewhere`, [a]);
  if (number === "63") return fault(time - 0.5, `${a} makes no step`, [a]);
  if (number === "64") return fault(last, `${a} ends elsewhere`, [a]);
  if (number === "65") return fault(last, `${a} was there before`, [a]);
  if (kind === "vertex") return fault(time, `${a} and ${b} on one cell`);
  if (kind === "swapping") return fault(time - 0.5, `${a} and ${b} change places`);
  return kind === "following" ? fault(time - 0.5, `${a} follows ${b}`) : null;
}
