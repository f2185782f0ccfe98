/** A curved arrow from a cell of the core to another one. */

/** @typedef {{x: number, y: number}} Point */

/**
 * @param {CanvasRenderingContext2D} context
 * @param {{start: Point, end: Point, cell: number, isFaint: boolean}} arrow `cell` is the size of a cell
 * @param {string} colour
 */
export function drawArrow(context, { start, end, cell, isFaint }, colour) {
  const ratio = devicePixelRatio;
  const [dx, dy] = [end.x - start.x, end.y - start.y];
  const length = Math.max(1, Math.hypot(dx, dy));
  // A short arrow is bent more, so that it is seen.
  const bend = Math.max(18 * ratio, Math.min(0.22 * length, 90 * ratio)) / length;
  const middle = { x: (start.x + end.x) / 2 + dy * bend, y: (start.y + end.y) / 2 - dx * bend };
  const angle = Math.atan2(end.y - middle.y, end.x - middle.x);
  const [gap, head] = [cell * 0.6 + 2 * ratio, 8 * ratio];
  const tip = { x: end.x - Math.cos(angle) * gap, y: end.y - Math.sin(angle) * gap };
  context.setTransform(1, 0, 0, 1, 0, 0);
  const path = new Path2D();
  path.moveTo(start.x, start.y);
  path.quadraticCurveTo(middle.x, middle.y, tip.x, tip.y);
  for (const side of [-0.5, 0.5]) {
    path.moveTo(tip.x, tip.y);
    path.lineTo(tip.x - head * Math.cos(angle + side), tip.y - head * Math.sin(angle + side));
  }
  context.lineCap = "round";
  context.setLineDash(isFaint ? [3 * ratio, 5 * ratio] : []);
  for (const [width, stroke] of [[5, "rgba(5,7,10,.85)"], [2.25, colour]]) {
    context.lineWidth = Number(width) * ratio;
    context.strokeStyle = String(stroke);
    context.stroke(path);
  }
  context.setLineDash([]);
}
