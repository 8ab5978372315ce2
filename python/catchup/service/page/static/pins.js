// The pins of places on the map: dragged by the mouse or a finger, and moved by keys.

import { speak } from "./speak.js";
import { state } from "./state.js";
import { latLng } from "./world.js";

const { L } = window;
const NEAR = 5, FAR = 40;       // pixels of a step, without the shift key and with it
const PAUSE = 700;              // milliseconds that a pin rests before its place is asked
const STEPS = { ArrowLeft: [-1, 0], ArrowRight: [1, 0], ArrowUp: [0, -1], ArrowDown: [0, 1] };
const TITLES = { first: "Where the route begins", last: "Where the route ends", via: "A stop on the way" };

export function kindOf(index, places) {
  return index === 0 ? "first" : index === places.length - 1 ? "last" : "via";
}

export function letterOf(index, places) {
  return index === 0 ? "A" : index === places.length - 1 ? "B" : String(index);
}

export class Pins {
  // `find` answers the place at a spot, or null; `onPlace` gets it with the place's index, `onRemove` an index.
  constructor(chart, { find, onPlace, onRemove }) {
    Object.assign(this, { chart, find, onPlace, onRemove });
    this.markers = [];
  }

  show(places) {
    for (let index = places.length; index < this.markers.length; index++) this.drop(index);
    this.markers.length = places.length;
    places.forEach((place, index) => {
      const kind = kindOf(index, state.places), letter = letterOf(index, state.places), key = kind + letter;
      const isWanted = place && place.x !== null;
      if (!isWanted || this.markers[index]?.key !== key) this.drop(index);
      if (!isWanted) return;
      this.markers[index] ??= this.marker(index, kind, letter, latLng(place.x, place.y));
      const marker = this.markers[index];
      // One that somebody moves stays there, unless its place has become another one.
      if (marker.move?.place !== place) this.put(marker, place);
      const title = kind === "via" ? `Stop ${letter} on the way` : TITLES[kind];
      marker.getElement().setAttribute("aria-label", `${title}: ${place.name ?? place.word}`);
    });
    this.sort();
  }

  // The key of tabulation goes from the start over the stops to the end.
  sort() {
    const pins = this.markers.filter(Boolean).map(marker => marker.getElement()), focused = document.activeElement;
    pins.slice(0, -1).reduceRight((next, pin) => {
      if (pin.nextElementSibling !== next) next.before(pin);
      return pin;
    }, pins.at(-1));
    if (pins.includes(focused)) focused.focus({ preventScroll: true });
  }

  drop(index) {
    const marker = this.markers[index];
    this.markers[index] = undefined;
    if (!marker) return;
    this.forget(marker);
    marker.remove();
  }

  put(marker, place) {
    this.forget(marker);
    marker.place = place;
    marker.setLatLng(latLng(place.x, place.y));
  }

  marker(index, kind, letter, spot) {
    const icon = L.divIcon({ className: `pin ${kind}`, html: letter, iconSize: [26, 26] }), title = TITLES[kind];
    const marker = L.marker(spot, { icon, draggable: true, title, alt: title, autoPan: true }).addTo(this.chart.map);
    Object.assign(marker, { key: kind + letter, index, move: null });
    marker.on("dragstart", () => this.forget(marker));
    marker.on("dragend", () => {
      this.droppedAt = performance.now();
      const drag = marker.drag = {};
      this.take(marker, () => marker.drag === drag);
    });
    const element = marker.getElement();
    element.setAttribute("role", "button");
    element.setAttribute("aria-roledescription", "pin");
    element.setAttribute("aria-describedby", "pin-keys");
    element.addEventListener("keydown", event => this.key(marker, event));
    element.addEventListener("blur", () => { if (marker.move?.pause) this.rest(marker); });
    return marker;
  }

  // A marker that was dropped beside the pointer makes a click of the map.
  isDropped() {
    return performance.now() - (this.droppedAt ?? -Infinity) < 300;
  }

  // ---- by keys ----

  key(marker, event) {
    if (event.altKey || event.ctrlKey || event.metaKey) return;
    const step = STEPS[event.key];
    if (step) this.nudge(marker, L.point(step).multiplyBy(event.shiftKey ? FAR : NEAR));
    else if (event.key === "Escape") this.undo(marker);
    else if (event.key === "Enter" || event.key === " ") this.rest(marker);
    else if (event.key === "Delete" || event.key === "Backspace") this.remove(marker);
    else return;
    event.preventDefault();
    event.stopPropagation();
  }

  nudge(marker, by) {
    const { map } = this.chart;
    marker.move ??= { from: marker.getLatLng(), place: marker.place, round: 0 };
    const { move } = marker, zoom = map.getZoom();
    marker.setLatLng(map.unproject(map.project(marker.getLatLng(), zoom).add(by), zoom));
    this.chart.fitted = null;
    map.panInside(marker.getLatLng(), { padding: [40, 40] });
    move.round++;
    clearTimeout(move.pause);
    move.pause = setTimeout(() => this.rest(marker), PAUSE);
  }

  // Where a move has come to its end its place is asked; until that has come it can go on, or be undone.
  rest(marker) {
    const { move } = marker, round = move?.round;
    if (!move?.pause) return;
    clearTimeout(move.pause);
    move.pause = null;
    this.take(marker, () => marker.move === move && move.round === round);
  }

  async take(marker, isWanted) {
    const place = await this.find(marker.getLatLng());
    // It may have been moved again meanwhile, or taken away with its place.
    if (!isWanted() || this.markers[marker.index] !== marker) return;
    this.forget(marker);
    this.onPlace(marker.index, place);
  }

  undo(marker) {
    if (!marker.move) return;
    marker.setLatLng(marker.move.from);
    this.forget(marker);
    speak("The pin is where it was.");
  }

  forget(marker) {
    clearTimeout(marker.move?.pause);
    marker.move = null;
  }

  remove(marker) {
    this.forget(marker);
    this.chart.map.getContainer().focus({ preventScroll: true });
    this.onRemove(marker.index);
  }
}
