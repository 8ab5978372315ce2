// The map by the keyboard: a cross-hair in its middle, which takes a place or a road as a click does there, and says
// what lies under it.

import { distance } from "./clock.js";
import { at, fill, make } from "./dom.js";
import { colours } from "./palette.js";
import { kindOf } from "./pins.js";
import { ask } from "./service.js";
import { speak } from "./speak.js";
import { onChange, state } from "./state.js";
import { streetName } from "./traffic.js";
import { places } from "./world.js";

const { L } = window;
const PAUSE = 150;              // milliseconds that the map rests before it is told what lies in the middle
// An arrow moves the map by 80 pixels. Roads as far as half of its diagonal are taken, so each that is seen can be.
const NEAR = 60;
const ZOOMS = { "+": 1, "=": 1, "-": -1, "_": -1 };
const TAKES = {
  route: "takes the place in the middle: as the start, then as the end, and then it asks as what",
  reach: "takes the place in the middle as the start",
  traffic: "takes the road in the middle, to close it or to slow it down",
};

const ROLES = { first: "from here", via: "over here", last: "to here" };

export class Middle {
  constructor(chart) {
    this.chart = chart;
    this.element = chart.map.getContainer();
    this.isShown = false;
    this.isAsked = false;       // whether somebody waits to hear what lies in the middle
    this.round = 0;             // of telling what lies there: of several the last one counts
    this.lastKey = null;        // the key that was pressed last; null behind the mouse
    this.listen();
    onChange(names => {
      if (names.includes("mode")) this.tellKeys();
      if (names.includes("places") || names.includes("mode")) this.look();
    });
    this.tellKeys();
  }

  listen() {
    const { element, chart } = this;
    // Leaflet gives the map the focus when the mouse is pressed, which needs no cross-hair.
    element.addEventListener("focus", event => {
      this.isAsked = this.lastKey === "Tab" || Boolean(event.relatedTarget?.matches(".skip"));
      this.show(this.lastKey !== null && element.matches(":focus-visible"));
    });
    element.addEventListener("blur", () => this.show(false));
    element.addEventListener("pointerdown", () => { this.lastKey = null; this.show(false); }, true);
    document.addEventListener("keydown", event => { this.lastKey = event.key; }, true);
    element.addEventListener("keydown", event => this.key(event));
    // The key for menus, which tells no place.
    element.addEventListener("contextmenu", event => {
      if (!this.isShown || event.target !== element) return;
      event.preventDefault();
      event.stopPropagation();
      this.take("contextmenu");
    }, true);
    chart.map.on("zoomstart", () => { this.zoom = chart.map.getZoom(); });
    chart.map.on("moveend", () => this.look());
  }

  key(event) {
    if (event.target !== this.element || event.altKey || event.ctrlKey || event.metaKey) return;
    if (event.key !== "Tab" && event.key !== "Shift") this.show(true);
    // Leaflet moves the map.
    if (event.key.startsWith("Arrow")) { this.chart.fitted = null; this.isAsked = true; }
    const { map } = this.chart;
    if (ZOOMS[event.key]) { this.isAsked = true; map.setZoom(map.getZoom() + ZOOMS[event.key]); }
    else if (event.key === "Enter" || event.key === " ") this.take("click");
    else return;
    event.preventDefault();
    event.stopPropagation();
  }

  take(type) {
    // What is said of that goes before.
    this.isAsked = false;
    this.chart.onClick?.(this.chart.map.getCenter(), { type, isByKeys: true, pixels: NEAR });
  }

  show(isShown) {
    at("cross").hidden = !isShown;
    this.element.classList.toggle("keyed", isShown);
    if (this.isShown === isShown) return;
    this.isShown = isShown;
    this.lit?.remove();
    if (isShown) this.look();
  }

  tellKeys() {
    at("map-keys").textContent = "Arrow keys move the map, with Shift further; + and - zoom. "
      + `Enter or the space bar ${TAKES[state.mode]}.`;
  }

  // ---- what lies in the middle ----

  look() {
    clearTimeout(this.pause);
    if (this.isShown) this.pause = setTimeout(() => this.tell(), PAUSE);
  }

  async tell() {
    const street = this.chart.streetAt(this.chart.map.getCenter(), NEAR), round = ++this.round;
    const found = street < 0 ? null : await ask("page/street", { street }).catch(() => null);
    // The map has gone on, or the keys are elsewhere.
    if (!this.isShown || round !== this.round) return;
    const name = found ? streetName(found) : "No road here";
    fill(at("cross-name"), name, found && make("small", {}, `Enter: ${this.taken()}`));
    this.lit?.remove();
    if (found && state.mode === "traffic") {
      const look = { color: colours().mark, weight: 5, opacity: 0.6, interactive: false };
      this.lit = L.polyline(places(found.line.flat()), look).addTo(this.chart.map);
    }
    // A map that is moved by something else, as to show a route, says nothing: that would go before what was done.
    if (this.isAsked) speak(this.zoomed() + name);
    this.isAsked = false;
  }

  // What Enter does with it.
  taken() {
    if (state.mode === "traffic") return "close it or slow it down";
    const missing = state.mode === "reach" ? 0 : state.places.indexOf(null);
    return missing < 0 ? "what to do here" : ROLES[kindOf(missing, state.places)];
  }

  // Said behind a change of zoom: how much the map shows now.
  zoomed() {
    const { map } = this.chart, before = this.zoom, now = map.getZoom();
    this.zoom = now;
    if (before === undefined || before === now) return "";
    const bounds = map.getBounds(), { lat } = map.getCenter();
    const wide = map.distance([lat, bounds.getWest()], [lat, bounds.getEast()]);
    return this.chart.found.is_plane ? `${now > before ? "Closer" : "Wider"}: ` : `The map is ${distance(wide)} wide: `;
  }
}
