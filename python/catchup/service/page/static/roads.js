// The layer of roads: tiles drawn on canvases, some roads at a time, so that a map that moves never waits for them.

import { colours } from "./palette.js";
import { SIDE, Tiles } from "./tiles.js";
import { ZOOM } from "./world.js";

const { L } = window;
const BUDGET = 7;           // milliseconds of drawing between two frames
const CHUNK = 1200;         // points that are drawn before the time is looked at
export const FORWARD = 16, BACKWARD = 32, SHUT = 64;
const OVERLAP = 1;          // pixels by which tiles overlap, since a scaled map has seams between them
const WIDTH = [3.6, 3.1, 2.6, 2.2, 1.7, 1.4, 1.1, 1.1];

const queue = [];
const scratch = document.createElement("canvas").getContext("2d");
let isRunning = false;

function work() {
  const end = performance.now() + BUDGET;
  while (queue.length && performance.now() < end) {
    const job = queue[0];
    if (job.isOver?.() || job.steps.next().done) queue.shift();
  }
  isRunning = queue.length > 0;
  if (!isRunning) return;
  flush(queue[0].canvas);
  requestAnimationFrame(work);
}

// Browsers note what is drawn, and draw it once the canvas is looked at: here at each pause, so that it is never much
// at once.
function flush({ spare }) {
  if (spare?.width) scratch.drawImage(spare, 0, 0, 1, 1, 0, 0, 1, 1);
}

function enqueue(job) {
  queue.push(job);
  if (isRunning) return;
  isRunning = true;
  requestAnimationFrame(work);
}

export function isDrawing() {
  return queue.length > 0;
}

export const Roads = L.GridLayer.extend({
  options: { tileSize: SIDE, updateWhenZooming: false, keepBuffer: 1, updateInterval: 120, className: "roads" },

  initialize(map, options) {
    L.setOptions(this, options);
    this.data = new Tiles(map, () => this.fire("other"));
    this.mean = map.mean;
    this.ways = null;       // of each street in which directions it may be driven, FORWARD, BACKWARD and SHUT
    this.classes = null;    // of each street a number into `styles`; null draws all alike
    this.styles = [];
    this.isFaint = false;
    this.on("tileunload", event => { event.tile.isGone = true; });
  },

  createTile(coords, done) {
    const canvas = L.DomUtil.create("canvas", "leaflet-tile");
    canvas.ratio = Math.min(window.devicePixelRatio || 1, 2);
    canvas.width = canvas.height = Math.ceil((SIDE + OVERLAP) * canvas.ratio);
    canvas.coords = coords;
    this.data.all(coords).then(tiles => {
      canvas.data = tiles;
      enqueue({ canvas, steps: this.steps(canvas, done), isOver: () => canvas.isGone });
    }, problem => done(problem, canvas));
    return canvas;
  },

  _initTile(canvas) {
    L.GridLayer.prototype._initTile.call(this, canvas);
    canvas.style.width = canvas.style.height = `${canvas.width / canvas.ratio}px`;
  },

  // Draws all tiles anew that are there, as after other colours.
  restyle() {
    for (const { el: canvas } of Object.values(this._tiles ?? {})) {
      if (!canvas.data) continue;
      canvas.round = (canvas.round ?? 0) + 1;
      const round = canvas.round, isOver = () => canvas.isGone || canvas.round !== round;
      enqueue({ canvas, steps: this.steps(canvas, () => {}), isOver });
    }
  },

  // How many pixels a middling street has: by that roads are broad or narrow, and arrows drawn or not.
  near(zoom) {
    return this.mean / 2 ** (ZOOM - zoom);
  },

  * steps(canvas, done) {
    const spare = document.createElement("canvas"), { coords, ratio } = canvas;
    canvas.spare = spare;
    spare.width = spare.height = canvas.width;
    const pen = spare.getContext("2d"), scale = ratio / 2 ** (ZOOM - coords.z);
    const side = SIDE * ratio, margin = 12 * ratio;
    const view = { pen, scale, ratio, x: coords.x * side, y: coords.y * side, near: this.near(coords.z) };
    for (const tile of canvas.data) {
      const pieces = tile.inside((view.x - margin) / scale, (view.y - margin) / scale,
        (view.x + canvas.width + margin) / scale, (view.y + canvas.height + margin) / scale);
      yield* this.strokes(tile, pieces, view);
      if (view.near >= 38 && this.ways) yield* this.arrows(tile, pieces, view);
    }
    const own = canvas.getContext("2d");
    own.clearRect(0, 0, canvas.width, canvas.height);
    own.drawImage(spare, 0, 0);
    spare.width = 0;
    canvas.isDrawn = true;
    done(null, canvas);
  },

  // The pieces of a tile that are drawn alike, of each kind.
  sorted(tile, pieces) {
    const found = new Map();
    for (const i of pieces) {
      const street = tile.street[i], isShut = this.ways ? this.ways[street] & SHUT : 0;
      const key = (isShut ? 4096 : 0) + (this.classes ? this.classes[street] : 0) * 8 + Math.min(tile.rank[i], 7);
      if (!found.has(key)) found.set(key, []);
      found.get(key).push(i);
    }
    // Greater roads lie on smaller ones, slow ones on free ones.
    return [...found].sort(([a], [b]) => (a >> 3) - (b >> 3) || (b & 7) - (a & 7));
  },

  * strokes(tile, pieces, view) {
    const { pen } = view;
    pen.lineJoin = pen.lineCap = "round";
    for (const [key, list] of this.sorted(tile, pieces)) {
      this.style(pen, key, view);
      let points = 0;
      pen.beginPath();
      for (const i of list) {
        trace(tile, i, view);
        points += tile.first[i + 1] - tile.first[i];
        if (points < CHUNK) continue;
        pen.stroke();
        yield;
        points = 0;
        pen.beginPath();
      }
      pen.stroke();
      yield;
    }
  },

  style(pen, key, { near, ratio }) {
    const rank = key & 7, isShut = key >= 4096, style = this.styles[key >> 3 & 511];
    const shown = colours(), growth = Math.min(Math.max(0.34 * near ** 0.42, 0.5), 4);
    const width = Math.max(WIDTH[rank] * growth * (style?.width ?? 1), 0.6) * ratio;
    pen.lineWidth = width;
    pen.setLineDash([]);
    pen.lineCap = "round";
    pen.strokeStyle = style?.colour ?? (this.isFaint ? shown.faint : rank < 2 ? shown.main : shown.road);
    if (!isShut) return;
    pen.lineCap = "butt";
    pen.lineWidth = Math.max(width, 1.6 * ratio);
    pen.setLineDash([Math.max(2.2 * width, 4 * ratio), Math.max(1.6 * width, 3 * ratio)]);
    pen.strokeStyle = shown.shut;
  },

  // Arrows on roads that are driven one way: on each stretch that has room for one.
  * arrows(tile, pieces, view) {
    const { pen, ratio } = view;
    pen.setLineDash([]);
    pen.strokeStyle = colours().arrow;
    pen.lineWidth = 1.8 * ratio;
    pen.lineCap = pen.lineJoin = "round";
    pen.beginPath();
    for (const i of pieces) {
      const way = this.ways[tile.street[i]] & (FORWARD | BACKWARD);
      if (way === FORWARD || way === BACKWARD) arrowsOf(tile, i, view, way === FORWARD ? 1 : -1);
    }
    pen.stroke();
    yield;
  },
});

function trace(tile, i, { pen, scale, x, y }) {
  const { places } = tile, end = 2 * tile.first[i + 1];
  let at = 2 * tile.first[i];
  pen.moveTo(places[at] * scale - x, places[at + 1] * scale - y);
  for (at += 2; at < end; at += 2) pen.lineTo(places[at] * scale - x, places[at + 1] * scale - y);
}

function arrowsOf(tile, i, { pen, scale, ratio, x, y }, sense) {
  const { places } = tile, size = 5.5 * ratio, every = 90 * ratio;
  let behind = every / 2;
  for (let at = 2 * tile.first[i]; at < 2 * tile.first[i + 1] - 2; at += 2) {
    const ax = places[at] * scale - x, ay = places[at + 1] * scale - y;
    const dx = places[at + 2] * scale - x - ax, dy = places[at + 3] * scale - y - ay, length = Math.hypot(dx, dy);
    for (; length >= 2.5 * size && behind <= length; behind += every) {
      const part = Math.min(Math.max(behind / length, size / length), 1 - size / length);
      const ux = dx / length * sense * size, uy = dy / length * sense * size, mx = ax + part * dx, my = ay + part * dy;
      pen.moveTo(mx - ux * 0.5 - uy * 0.8, my - uy * 0.5 + ux * 0.8);
      pen.lineTo(mx + ux * 0.5, my + uy * 0.5);
      pen.lineTo(mx - ux * 0.5 + uy * 0.8, my - uy * 0.5 - ux * 0.8);
    }
    behind = Math.max(behind - length, 0);
  }
}
