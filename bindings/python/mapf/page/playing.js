// Time and camera.
let asked = 0, before = 0;
const redraw = () => { asked ||= requestAnimationFrame(frame); };
/** @param {number} now */
function frame(now) {
  asked = 0;
  if (state.playing) setTime(state.time + (Math.min(100, now - before) / 1000) * Number($("speed").value));
  if (state.playing && state.time >= (state.plan?.end ?? 0)) setPlaying(false);
  before = now;
  draw();
}
/** @param {number} time */
function setTime(time) {
  const end = state.plan?.end ?? 0;
  state.time = $("time").value = Math.min(end, Math.max(0, time));
  $("clock").innerHTML = `<b>${state.playing ? Math.floor(state.time) : Number(state.time.toFixed(1))}</b> / ${end}`;
  redraw();
}
/** @param {boolean} playing */
function setPlaying(playing) {
  if (playing && state.time >= (state.plan?.end ?? 0)) state.time = 0;
  state.playing = playing && state.plan !== null;
  before = performance.now();
  $("play").setAttribute("aria-pressed", String(state.playing));
  setTime(state.time);
}
/** Goes to a time, and stays there. */
function stay(/** @type {number} */ time) {
  setPlaying(false);
  setTime(time);
}
/** Slower or faster. */
function pace(/** @type {number} */ by) {
  $("speed").selectedIndex = Math.min(5, Math.max(0, $("speed").selectedIndex + by));
}
function goToFault() {
  const { plan, fault } = state;
  if (!fault || !plan) return;
  stay(fault.at);
  const [x, y] = fault.middle;
  if (camera.scale >= 14 && isSeen(...onScreen(x, y), 50)) return;
  Object.assign(camera, { x: x + 0.5, y: y + 0.5, scale: Math.max(camera.scale, 26) });
}
/** The whole map. */
function fit() {
  const { width, height } = state.grid ?? { width: 1, height: 1 };
  const scale = Math.min((view.clientWidth - 56) / width, (view.clientHeight - 56) / height, 130);
  Object.assign(camera, { scale, x: width / 2, y: height / 2 });
  redraw();
}
/** Around a point of the view. */
function zoom(/** @type {number} */ factor, x = view.clientWidth / 2, y = view.clientHeight / 2) {
  const grown = Math.min(160, Math.max(0.25, camera.scale * factor)) / camera.scale;
  camera.scale *= grown;
  slide((x - view.clientWidth / 2) * (grown - 1), (y - view.clientHeight / 2) * (grown - 1));
}
/** Moves the camera by pixels of the view. */
function slide(/** @type {number} */ x, /** @type {number} */ y) {
  camera.x += x / camera.scale;
  camera.y += y / camera.scale;
  redraw();
}
