// The day's curve below the map: travel time by departure, the present departure, and where another route takes over.

import { clock, DAY, minute, shortSpan, span } from "./clock.js";
import { curveOf } from "./curve.js";
import { at } from "./dom.js";
import { colours, onTheme } from "./palette.js";
import { ask, newest } from "./service.js";
import { change, isWhole, onChange, state } from "./state.js";

const MARGIN = { left: 76, right: 16, top: 10, bottom: 30 };
// Seconds by which keys change the departure.
const STEPS = {
  ArrowLeft: -300, ArrowDown: -300, ArrowRight: 300, ArrowUp: 300, PageUp: 3600, PageDown: -3600,
};
const LABEL = 18;               // pixels that the text of the mark is high
const FONT = "12px system-ui, 'DejaVu Sans', sans-serif";

export class Day {
  constructor() {
    this.curve = null;
    this.depart = null;
    this.canvas = at("day");
    this.ask = newest((legs, isLast) => this.askOnce(legs, isLast));
    onChange(names => {
      if (["places", "mode", "profile"].some(name => names.includes(name))) this.refresh();
      // The mark is where somebody has put it before the route has its answer.
      else if (names.includes("time") || names.includes("by")) this.draw();
    });
    onTheme(() => this.draw());
    new ResizeObserver(() => this.draw()).observe(this.canvas);
    this.listen();
    this.refresh();
  }

  refresh(isOther = false) {
    const isWanted = state.mode === "route" && isWhole();
    at("curve").hidden = !isWanted;
    if (!isWanted) return;
    const words = state.places.map(place => place.word), key = words.join(";");
    if (key === this.key && !isOther) return;
    if (key !== this.key) this.curve = null;
    this.key = key;
    this.ask(words.slice(1).map((word, index) => ({ from: words[index], to: word })));
    this.draw();
  }

  async askOnce(legs, isLast) {
    this.isAsked = true;
    try {
      const days = await Promise.all(legs.map(leg => ask("day", leg)));
      if (!isLast()) return;
      this.curve = days.every(day => day.answer === "day") ? curveOf(days) : null;
    } catch (problem) {
      if (!isLast()) return;
      // It is asked again with the next change.
      this.curve = this.key = null;
    }
    this.isAsked = false;
    this.draw();
  }

  // The departure of the route that is shown.
  mark(depart) {
    this.depart = depart;
    this.draw();
  }

  tell() {
    const { curve } = this;
    if (!curve) {
      at("day-said").textContent = this.isAsked ? "The travel times of the day are being worked out …" : "";
      return;
    }
    const { travels, least, most, changes } = curve;
    const both = travels[most] > travels[least]
      ? `Shortest ${span(travels[least])} at ${minute(least)}, longest ${span(travels[most])} at ${minute(most)}.`
      : `The drive takes ${span(travels[least])} all day.`;
    const times = [...new Set(changes.map(minute))];
    const first = times.slice(0, 4).join(", ") + (times.length > 4 ? " and later" : "");
    const others = times.length ? ` Another route takes over at ${first}.` : "";
    at("day-said").textContent = both + others;
    this.canvas.setAttribute("aria-label", `Departure, by travel time. ${both}${others}`);
  }

  // What the curve says as a slider: a departure, and how long the drive takes then.
  tellValue() {
    const second = this.second();
    this.canvas.setAttribute("aria-valuenow", String(second));
    this.canvas.setAttribute("aria-valuetext", `${minute(second)}, ${span(this.curve.travels[second])}`);
  }

  // The second of the day at which one departs: the one that is chosen, so that each key goes on from the one before;
  // of a time by which to arrive, that of the route's answer.
  second() {
    const second = state.by === "depart" ? state.time : this.depart ?? state.time;
    return Math.min(Math.max(Math.round(second), 0), DAY - 1);
  }

  // ---- drawing ----

  draw() {
    this.tell();
    const ratio = window.devicePixelRatio || 1, box = this.canvas.getBoundingClientRect();
    if (!box.width) return;
    this.canvas.width = Math.round(box.width * ratio);
    this.canvas.height = Math.round(box.height * ratio);
    const pen = this.canvas.getContext("2d");
    pen.setTransform(ratio, 0, 0, ratio, 0, 0);
    pen.font = FONT;
    const right = box.width - MARGIN.right, bottom = box.height - MARGIN.bottom;
    const x = second => MARGIN.left + second / DAY * (right - MARGIN.left);
    const view = { pen, right, bottom, width: box.width, x };
    this.drawAxis(view);
    if (!this.curve) return;
    this.tellValue();
    this.scale(view);
    this.drawRush(view);
    this.drawTimes(view);
    this.drawCurve(view);
    this.drawChanges(view);
    this.drawMark(view);
  }

  drawAxis({ pen, x, bottom, right, width }) {
    const shown = colours();
    pen.strokeStyle = shown.line;
    pen.fillStyle = shown.soft;
    pen.textAlign = "center";
    const every = width < 420 ? 6 : width < 760 ? 3 : 2;
    for (let hour = 0; hour <= 24; hour += every) {
      const at = Math.round(x(hour * 3600)) + 0.5;
      pen.beginPath();
      pen.moveTo(at, MARGIN.top);
      pen.lineTo(at, bottom + 4);
      pen.stroke();
      pen.fillText(`${String(hour).padStart(2, "0")}:00`, Math.min(at, right - 2), bottom + 26);
    }
  }

  // The vertical scale: from nothing on, where that leaves the curve room enough.
  scale(view) {
    const { travels, least, most } = this.curve, low = travels[least], high = travels[most];
    view.base = high > low * 1.6 ? 0 : Math.max(0, low - Math.max(high - low, 60));
    view.top = high + Math.max((high - view.base) * 0.1, 20);
    view.y = travel => view.bottom - (travel - view.base) / (view.top - view.base) * (view.bottom - MARGIN.top);
  }

  drawRush({ pen, x, bottom }) {
    pen.fillStyle = colours().rush;
    for (const [from, to] of this.curve.rush) {
      pen.fillRect(x(from), MARGIN.top, Math.max(x(to) - x(from), 1), bottom - MARGIN.top);
    }
  }

  drawTimes({ pen, y, base, right }) {
    const { travels, least, most } = this.curve, shown = colours();
    pen.textAlign = "right";
    let last = Infinity;
    for (const travel of [...new Set([base, travels[least], travels[most]])]) {
      const at = Math.round(y(travel)) + 0.5;
      if (last - at < 15) continue;
      last = at;
      pen.strokeStyle = shown.line;
      pen.fillStyle = shown.soft;
      pen.beginPath();
      pen.moveTo(MARGIN.left, at);
      pen.lineTo(right, at);
      pen.stroke();
      pen.fillText(shortSpan(travel), MARGIN.left - 7, at + 4);
    }
  }

  drawCurve({ pen, x, y, right }) {
    const { travels } = this.curve, step = Math.max(1, Math.floor(DAY / (right - MARGIN.left) / 2));
    pen.strokeStyle = colours().curve;
    pen.lineWidth = 1.8;
    pen.lineJoin = "round";
    pen.beginPath();
    for (let second = 0; second < DAY; second += step) {
      // Of each stretch its lowest and its highest time, so that no peak is passed over.
      let low = travels[second], high = low;
      for (let at = second; at < Math.min(second + step, DAY); at++) {
        low = Math.min(low, travels[at]);
        high = Math.max(high, travels[at]);
      }
      pen.lineTo(x(second), y(low));
      if (high > low) pen.lineTo(x(second), y(high));
    }
    pen.stroke();
    pen.lineWidth = 1;
  }

  // A triangle under the axis for each second at which another route is the best one.
  drawChanges({ pen, x, bottom }) {
    pen.fillStyle = colours().route;
    for (const second of this.curve.changes) {
      const at = x(second);
      pen.beginPath();
      pen.moveTo(at, bottom + 2);
      pen.lineTo(at - 4.5, bottom + 11);
      pen.lineTo(at + 4.5, bottom + 11);
      pen.fill();
    }
  }

  // Where a text so wide beside a line hides the least of the curve, mostly nothing: at the top or the bottom, to the
  // right or the left.
  spotOf({ x, y, right, bottom }, at, wide) {
    const { travels } = this.curve, lefts = [at + 8, at - 8 - wide];
    const spots = [MARGIN.top - 4, bottom - LABEL - 2].flatMap(top => lefts.map(left => ({ left, top })))
      .filter(({ left }) => left >= MARGIN.left && left + wide < right);
    const second = pixel => Math.round((pixel - x(0)) / (x(DAY) - x(0)) * (DAY - 1));
    const hidden = ({ left, top }) => travels.slice(second(left), second(left + wide) + 1)
      .reduce((count, travel) => count + (y(travel) >= top && y(travel) <= top + LABEL), 0);
    const [best] = spots.map(spot => [hidden(spot), spot]).sort(([one], [other]) => one - other);
    return best?.[1] ?? { left: lefts[0], top: MARGIN.top - 4 };
  }

  drawMark(view) {
    if (this.depart === null) return;
    const { pen, x, y, bottom } = view;
    const second = this.second(), at = x(second);
    const travel = this.curve.travels[second];
    pen.strokeStyle = pen.fillStyle = colours().mark;
    pen.beginPath();
    pen.moveTo(at, MARGIN.top);
    pen.lineTo(at, bottom);
    pen.stroke();
    pen.beginPath();
    pen.arc(at, y(travel), 4.5, 0, 7);
    pen.fill();
    const text = `${clock(second)}, ${span(travel)}`, wide = pen.measureText(text).width + 10;
    const { left, top } = this.label = this.spotOf(view, at, wide);
    pen.fillStyle = colours().casing;
    pen.globalAlpha = 0.85;
    pen.fillRect(left, top, wide, LABEL);
    pen.globalAlpha = 1;
    pen.fillStyle = colours().mark;
    pen.textAlign = "left";
    pen.fillText(text, left + 5, top + 13);
  }

  // ---- what the user does ----

  listen() {
    const pick = event => {
      const box = this.canvas.getBoundingClientRect(), wide = box.width - MARGIN.left - MARGIN.right;
      const part = Math.min(Math.max((event.clientX - box.left - MARGIN.left) / wide, 0), 1);
      change({ by: "depart", time: Math.min(Math.round(part * 1440) * 60, DAY - 60) });
    };
    this.canvas.addEventListener("pointerdown", event => {
      this.canvas.setPointerCapture(event.pointerId);
      pick(event);
    });
    this.canvas.addEventListener("pointermove", event => { if (event.buttons) pick(event); });
    this.canvas.addEventListener("keydown", event => {
      const step = STEPS[event.key], end = { Home: 0, End: DAY - 60 }[event.key];
      if (!step && end === undefined) return;
      event.preventDefault();
      change({ by: "depart", time: end ?? (Math.round(this.second() / 60) * 60 + step + DAY) % DAY });
    });
  }
}
