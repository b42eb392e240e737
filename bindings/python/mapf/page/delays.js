// Waiting and detours: the time that brings agents no nearer to their goals, by the cells where they spend it.
/** The moves from each cell to a goal; -1 where there is no way. */
function movesTo(/** @type {Grid} */ { width, height, free }, /** @type {number} */ x, /** @type {number} */ y) {
  const moves = new Int32Array(width * height).fill(-1), queue = new Int32Array(width * height);
  let end = 0;
  const reach = (/** @type {number} */ cell, /** @type {number} */ count) => {
    if (!free[cell] || moves[cell] >= 0) return;
    moves[cell] = count;
    queue[end++] = cell;
  };
  if (x < width && y < height) reach(y * width + x, 0);
  for (let next = 0; next < end; next++) {
    const cell = queue[next], count = moves[cell] + 1, column = cell % width;
    if (column > 0) reach(cell - 1, count);
    if (column < width - 1) reach(cell + 1, count);
    reach(cell - width, count);
    reach(cell + width, count);
  }
  return moves;
}
/** For each cell how long agents were delayed there: a wait is 1, and a step away from the goal 2. Together they are
 * what the plan costs beyond the shortest ways. Where to find those would take seconds, they are the waits alone. */
function delaysOf(/** @type {Plan} */ { paths, lasts }, /** @type {Grid} */ grid) {
  const delays = new Float32Array(grid.width * grid.height), all = delays.length * paths.length < 1e8;
  paths.forEach((path, i) => {
    const moves = all ? movesTo(grid, path[2 * lasts[i]], path[2 * lasts[i] + 1]) : null;
    for (let t = 0; t < lasts[i]; t++) {
      const [x, y, toX, toY] = path.subarray(2 * t, 2 * t + 4), from = y * grid.width + x, to = toY * grid.width + toX;
      const lost = moves ? 1 + moves[to] - moves[from] : Number(from === to);
      if (x < grid.width && y < grid.height && lost > 0) delays[from] += lost;
    }
  });
  return { delays, what: all ? "waiting and detours" : "waiting" };
}
/** What was found last. */
let found = {
  plan: /** @type {?Plan} */ (null), grid: /** @type {?Grid} */ (null), what: "", delays: new Float32Array(1),
};
/** Paints the cells of delays, the redder the longer, and says what they add up to. */
function drawDelays() {
  const { plan, grid } = state, shown = plan && grid && state.delays;
  if (shown && (found.plan !== plan || found.grid !== grid)) found = { plan, grid, ...delaysOf(plan, grid) };
  const delays = shown ? found.delays : [0];
  const { width, height } = shown ? grid : { width: 1, height: 1 };
  let most = 0, sum = 0;
  for (const delay of delays) {
    most = Math.max(most, delay);
    sum += delay;
  }
  paintCells(heat, width, height, colours.bad, (i) => delays[i] && 40 + 190 * Math.sqrt(delays[i] / most));
  $("delay").textContent = shown ? `Steps of ${found.what}: ${sum}, on a cell ${most} at most` : "";
}
