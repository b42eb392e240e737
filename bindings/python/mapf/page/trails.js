// Trails: those of whole steps are kept on a sheet, which is painted anew where the view changes.
let sheeted = { look: "", plan: /** @type {?Plan} */ (null), time: 0 };
/** Where agents went, and of the chosen one all of its way.
 * @param {Plan} plan @param {string} look the view's size and camera @param {number} ratio */
function drawTrails(plan, look, ratio) {
  const { chosen, time } = state;
  if (state.trails) {
    addSteps(plan, look, ratio, Math.floor(time));
    pen.globalAlpha = chosen === null ? 0.6 : 0.12;
    pen.setTransform(1, 0, 0, 1, 0, 0);
    pen.drawImage(sheet, 0, 0);
    toCells(pen, ratio);
    plan.lasts.forEach((last, i) => { if (time < last) drawWay(pen, plan, i, Math.floor(time), time); });
  }
  pen.globalAlpha = 0.6;
  toCells(pen, ratio);
  if (chosen !== null) drawWay(pen, plan, chosen, 0, plan.lasts[chosen]);
  pen.globalAlpha = 1;
  pen.setTransform(ratio, 0, 0, ratio, 0, 0);
}
/** From here on a pen draws in cells. */
function toCells(/** @type {CanvasRenderingContext2D} */ brush, /** @type {number} */ ratio) {
  const [left, top] = onScreen(0, 0), s = camera.scale;
  brush.setTransform(ratio * s, 0, 0, ratio * s, ratio * left, ratio * top);
  brush.lineJoin = brush.lineCap = "round";
  brush.lineWidth = Math.max(1.2 / s, 0.13);
}
/** Adds to the sheet the steps up to a time.
 * @param {Plan} plan @param {string} look @param {number} ratio @param {number} now */
function addSteps(plan, look, ratio, now) {
  if (sheeted.look !== look || sheeted.plan !== plan || now < sheeted.time) {
    [sheet.width, sheet.height] = [view.width, view.height];
    sheeted = { look, plan, time: 0 };
  }
  const brush = penOf(sheet), from = sheeted.time;
  toCells(brush, ratio);
  plan.lasts.forEach((last, i) => {
    const to = Math.min(now, last);
    if (from < to) drawWay(brush, plan, i, from, to);
  });
  sheeted.time = now;
}
/** An agent's way from a time, a whole one, to another.
 * @param {CanvasRenderingContext2D} brush @param {Plan} plan
 * @param {number} i @param {number} from @param {number} to */
function drawWay(brush, plan, i, from, to) {
  const path = plan.paths[i];
  brush.strokeStyle = hues[i];
  brush.beginPath();
  brush.moveTo(path[2 * from], path[2 * from + 1]);
  for (let t = from + 1; t <= to; t++) brush.lineTo(path[2 * t], path[2 * t + 1]);
  if (to % 1) brush.lineTo(...place(plan, i, to));
  brush.stroke();
}
