// The picture: map and goals on a ground that is kept while nothing of it changes, and on it the agents.
const engine = new Engine();
const state = {
  /** @type {Record<string, Source | null>} */ files: { map: null, scen: null, plan: null },
  grid: /** @type {?Grid} */ (null), rows: /** @type {number[][]} */ ([]), chosen: /** @type {?number} */ (null),
  plan: /** @type {?Plan} */ (null), fault: /** @type {?Fault} */ (null),
  time: 0, playing: false, trails: false, goals: true, delays: false, solving: false,
};
/** The pixels of a cell, and the middle of the view in cells. */
const camera = { scale: 20, x: 0, y: 0 };
/** @type {HTMLCanvasElement} */ const view = $("view");
const [walls, heat, ground, sheet] = [1, 2, 3, 4].map(() => document.createElement("canvas"));
const penOf = (/** @type {any} */ canvas) => /** @type {CanvasRenderingContext2D} */ (canvas.getContext("2d"));
const pen = penOf(view), paint = penOf(ground), dark = matchMedia("(prefers-color-scheme: dark)");
const colours = /** @type {Record<string, string>} */ ({}), hues = /** @type {string[]} */ ([]);
/** The size and camera that the ground was painted for; empty where all of it changed. */ let painted = "";
const whole = (/** @type {string} */ id) => Math.max(0, Math.min(1e9, Math.floor(Number($(id).value)) || 0));
/** The page's colours; and the agents', whose hues are a golden angle apart, so that neighbours differ. */
function readColours() {
  const probe = document.body.appendChild(document.createElement("i"));
  for (const name of ["card", "ink", "floor", "wall", "grid", "bad", "sunk", "number"]) {
    probe.style.color = `var(--${name})`;
    colours[name] = getComputedStyle(probe).color;
  }
  probe.remove();
  for (let i = 0; i < 1000; i++) hues[i] = `hsl(${(i * 137.508 + 5) % 360} ${dark.matches ? "75% 68%" : "65% 45%"})`;
}
/** Cells as one pixel each, in a colour; how much of it, from 0 to 255, is asked for each.
 * @param {HTMLCanvasElement} canvas @param {string} colour @param {(cell: number) => number} much */
function paintCells(canvas, /** @type {number} */ width, /** @type {number} */ height, colour, much) {
  [canvas.width, canvas.height] = [width, height];
  const image = penOf(canvas).createImageData(width, height), pixels = new Uint32Array(image.data.buffer);
  const [red, green, blue] = numbers(colour);
  for (let i = 0; i < pixels.length; i++) pixels[i] = (much(i) << 24) | (blue << 16) | (green << 8) | red;
  penOf(canvas).putImageData(image, 0, 0);
}
/** The walls; the floor is left out. */
function drawWalls() {
  const { width, height, free } = state.grid ?? { width: 1, height: 1, free: [1] };
  paintCells(walls, width, height, colours.wall, (cell) => (free[cell] ? 0 : 255));
}
/** @param {Plan} plan @param {number} i @param {number} time @returns {[number, number]} between two cells, too */
function place(plan, i, time) {
  const path = plan.paths[i], now = Math.min(time, plan.lasts[i]), from = Math.floor(now), to = Math.ceil(now);
  const part = now - from, ease = part * part * (3 - 2 * part), [x, y] = [path[2 * from], path[2 * from + 1]];
  return [x + (path[2 * to] - x) * ease, y + (path[2 * to + 1] - y) * ease];
}
/** @param {number} x @param {number} y @returns {[number, number]} */
const onScreen = (x, y) => [(x + 0.5 - camera.x) * camera.scale + view.clientWidth / 2,
  (y + 0.5 - camera.y) * camera.scale + view.clientHeight / 2];
/** @param {number} x @param {number} y @param {number} margin */
const isSeen = (x, y, margin) =>
  x > margin && y > margin && x < view.clientWidth - margin && y < view.clientHeight - margin;
const faint = (/** @type {number} */ i) => state.chosen !== null && state.chosen !== i;
/** Where the agents are now. */
const agents = () => state.plan?.paths.map((_, i) => place(/** @type {Plan} */ (state.plan), i, state.time)) ??
  state.rows.slice(0, Math.min(1000, whole("count")));
function draw() {
  const { plan, fault } = state, ratio = devicePixelRatio;
  const size = [view.clientWidth, view.clientHeight].map((side) => Math.round(side * ratio));
  if (view.width !== size[0] || view.height !== size[1]) [view.width, view.height] = size;
  const look = JSON.stringify([size, camera]);
  if (painted !== look) drawGround(size, ratio);
  painted = look;
  pen.setTransform(1, 0, 0, 1, 0, 0);
  pen.drawImage(ground, 0, 0);
  pen.setTransform(ratio, 0, 0, ratio, 0, 0);
  if (plan) drawTrails(plan, look, ratio);
  const beside = plan && fault ? inOnePlace(plan, fault) : [];
  agents().forEach(([x, y], i) => { if (!beside.includes(i)) drawAgent(i, ...onScreen(x, y)); });
  if (fault) drawFault(fault, beside);
}
/** @param {number[]} size in the screen's pixels @param {number} ratio of those to the page's */
function drawGround(size, ratio) {
  const grid = state.grid ?? { width: 0, height: 0 }, [left, top] = onScreen(-0.5, -0.5);
  const s = camera.scale, [right, bottom] = onScreen(grid.width - 0.5, grid.height - 0.5);
  const fill = (/** @type {string} */ colour, /** @type {number[]} */ [x0, y0, x1, y1]) => {
    paint.fillStyle = colour;
    paint.fillRect(x0, y0, x1 - x0, y1 - y0);
  };
  [ground.width, ground.height] = size;
  paint.setTransform(ratio, 0, 0, ratio, 0, 0);
  fill(colours.sunk, [0, 0, view.clientWidth, view.clientHeight]);
  fill(colours.floor, [left, top, right, bottom]);
  for (let x = left; s >= 7 && x < right; x += s) fill(colours.grid, [Math.round(x), top, Math.round(x) + 1, bottom]);
  for (let y = top; s >= 7 && y < bottom; y += s) fill(colours.grid, [left, Math.round(y), right, Math.round(y) + 1]);
  paint.imageSmoothingEnabled = s < 1;
  for (const cells of [heat, walls]) paint.drawImage(cells, left, top, right - left, bottom - top);
  if (state.goals) agents().forEach((_, i) => drawGoal(i));
}
/** @param {number} i */
function drawGoal(i) {
  const [goalX, goalY] = state.rows[i]?.slice(2) ?? state.plan?.paths[i].slice(-2) ?? [];
  const [x, y] = onScreen(goalX, goalY), s = camera.scale, half = Math.max(2, s * 0.37);
  if (!isSeen(x, y, -s)) return;
  paint.fillStyle = paint.strokeStyle = hues[i];
  paint.lineWidth = Math.max(1, s * 0.07);
  paint.globalAlpha = faint(i) ? 0.2 : 1;
  paint.strokeRect(x - half, y - half, 2 * half, 2 * half);
  paint.globalAlpha *= 0.15;
  paint.fillRect(x - half, y - half, 2 * half, 2 * half);
  paint.globalAlpha = 1;
}
/** @param {number} i @param {number} x @param {number} y of its middle on the screen @param {number} size in cells */
function drawAgent(i, x, y, size = 0.4) {
  const s = camera.scale;
  if (!isSeen(x, y, -s)) return;
  pen.globalAlpha = faint(i) ? 0.3 : 1;
  pen.fillStyle = hues[i];
  pen.strokeStyle = i === state.chosen ? colours.ink : colours.floor;
  pen.lineWidth = Math.max(0.8, s * 0.05);
  pen.beginPath();
  pen.arc(x, y, Math.max(3, s * size), 0, 7);
  pen.fill();
  if (s >= 8 || i === state.chosen) pen.stroke();
  if (s * size >= 6) drawWords(String(i), x, y, s * size * (i < 100 ? 1.05 : 0.8), colours.number);
  pen.globalAlpha = 1;
}
/** @param {string} text @param {number} x @param {number} y @param {number} size @param {string} colour */
function drawWords(text, x, y, size, colour) {
  pen.fillStyle = colour;
  pen.font = `600 ${Math.round(size)}px system-ui, sans-serif`;
  [pen.textAlign, pen.textBaseline] = ["center", "middle"];
  pen.fillText(text, x, y + size * 0.05);
}
/** The two agents of a fault, while they are in one place. */
function inOnePlace(/** @type {Plan} */ plan, /** @type {Fault} */ { agents: [a, b] }) {
  const [at, other] = [a, b ?? a].map((i) => place(plan, i, state.time));
  return a !== (b ?? a) && Math.hypot(at[0] - other[0], at[1] - other[1]) < 0.3 ? [a, b] : [];
}
/** A ring around a cell, and two agents in one place side by side in it; near its time what it is.
 * @param {Fault} fault @param {number[]} beside */
function drawFault({ middle, at, says }, beside) {
  const [x, y] = onScreen(...middle), s = Math.max(camera.scale, 9), radius = 0.56 * s;
  const near = 1 - Math.abs(state.time - at) / 1.5, apart = Math.max(3, 0.23 * s);
  beside.forEach((i, side) => drawAgent(i, x + (2 * side - 1) * apart, y, 0.23));
  pen.globalAlpha = 0.35 + 0.65 * Math.max(0, near);
  pen.strokeStyle = pen.fillStyle = colours.bad;
  pen.lineWidth = Math.max(1.5, s * 0.08);
  pen.beginPath();
  pen.arc(x, y, radius, 0, 7);
  pen.stroke();
  pen.globalAlpha = 1;
  if (near <= 0) return;
  pen.font = "600 13px system-ui, sans-serif";
  const half = pen.measureText(says).width / 2 + 10, [left, top] = roomFor(half, x, y, radius);
  pen.fillRect(left - half, top - 13, 2 * half, 26);
  drawWords(says, left, top, 13, colours.card);
}
/** The middle of a box, 26 high, that hides no agent: at a place, or else at the view's edge.
 * @param {number} half its width @param {number} x @param {number} y @param {number} radius @returns {number[]} */
function roomFor(half, x, y, radius) {
  const { clientWidth: wide, clientHeight: high } = view, middle = Math.min(Math.max(8 + half, x), wide - half - 8);
  const spots = [[middle, y - radius - 23], [middle, y + radius + 23], [x + radius + half + 10, y],
    [x - radius - half - 10, y], [middle, 14], [middle, high - 14]];
  const taken = agents().map(([x, y]) => onScreen(x, y)), body = Math.max(3, camera.scale * 0.4);
  const isFree = (/** @type {number[]} */ [left, top]) =>
    left >= half && left + half <= wide && top >= 14 && top + 14 <= high &&
    taken.every(([x, y]) => Math.abs(x - left) > half + body || Math.abs(y - top) > 13 + body);
  return spots.find(isFree) ?? spots[4];
}
