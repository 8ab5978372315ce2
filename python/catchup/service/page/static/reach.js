// What is reached from a place: streets in bands of one scale for the whole day, and the ground of each band.

import { clock, percent, span } from "./clock.js";
import { at, fill, legend, make, wrong } from "./dom.js";
import { bandColours, colours } from "./palette.js";
import { ask, bytes, newest } from "./service.js";
import { change, onChange, state } from "./state.js";
import { latLng } from "./world.js";

const { L } = window;
const COUNT = 6;
const UNREACHED = 255;
const CHOICES = [5, 10, 15, 30, 45, 60, 90, 120, 180];
const PAUSE = 250;              // milliseconds that the slider rests before the ground is drawn

// An answer may come when something else is shown, or the start is cleared.
function isWanted() {
  return state.mode === "reach" && state.places[0];
}

export class Reach {
  constructor(chart, paint) {
    this.chart = chart;
    this.paint = paint;
    this.pane = chart.map.getPane("ground");
    this.layer = L.layerGroup().addTo(chart.map);
    this.renderer = L.canvas({ pane: "ground", padding: 0.3 });
    this.ask = newest((words, isLast) => this.askOnce(words, isLast));
    this.askGround = newest((words, isLast) => this.askGroundOnce(words, isLast));
    fill(at("within"), CHOICES.map(minutes => make("option", { value: String(minutes * 60) }, span(minutes * 60))));
    at("within").onchange = event => change({ within: Number(event.target.value) });
    onChange(names => {
      if (["places", "time", "mode", "within", "profile"].some(name => names.includes(name))) this.refresh();
    });
    this.refresh();
  }

  words() {
    return { from: state.places[0].word, depart: clock(state.time), within: state.within, bands: COUNT };
  }

  refresh() {
    if (state.mode !== "reach") { this.clear(); return; }
    const value = String(state.within);
    if (![...at("within").options].some(option => option.value === value)) {
      at("within").prepend(make("option", { value }, span(state.within)));
    }
    at("within").value = value;
    this.tellBands();
    if (!state.places[0]) {
      this.clear();
      fill(at("reach-said"), make("span", { className: "soft" }, "Click on the map where to begin."));
      return;
    }
    this.ask(this.words());
    clearTimeout(this.pause);
    this.pause = setTimeout(() => this.askGround(this.words()), PAUSE);
  }

  clear() {
    clearTimeout(this.pause);
    this.layer.clearLayers();
    this.bands = null;
    if (state.mode === "reach") this.paint(null, []);
  }

  // The same colours all day: what they say depends on nothing but the time that was chosen.
  tellBands() {
    const limit = part => span(state.within * part / COUNT);
    const rows = bandColours(COUNT).map((colour, band) => [colour, `to ${limit(band + 1)}`]);
    legend(at("bands"), [...rows, [colours().faint, "not within"]]);
  }

  async askOnce(words, isLast) {
    try {
      const { data } = await bytes("page/reach", words);
      if (!isLast() || !isWanted()) return;
      this.bands = data.map(band => (band === UNREACHED ? COUNT : band));
      this.show();
      const count = data.reduce((sum, band) => sum + (band !== UNREACHED), 0);
      const part = `${percent(count, data.length)} of the streets`;
      fill(at("reach-said"), `Who leaves at ${clock(state.time)} reaches ${part} within ${span(state.within)}.`);
    } catch (problem) {
      if (isLast() && isWanted() && problem.status) fill(at("reach-said"), wrong(problem));
    }
  }

  show() {
    const styles = bandColours(COUNT).map(colour => ({ colour, width: 1.05 }));
    this.paint(this.bands, [...styles, { colour: colours().faint }]);
  }

  async askGroundOnce(words, isLast) {
    if (this.chart.found.is_plane) return;
    try {
      const { bands } = await ask("page/ground", words);
      if (!isLast() || !isWanted()) return;
      this.layer.clearLayers();
      bands.forEach(({ polygons }, index) => this.drawBand(polygons, bandColours(COUNT)[COUNT - 1 - index]));
    } catch (problem) {
      if (problem.status) this.layer.clearLayers();
    }
  }

  drawBand(polygons, colour) {
    const rings = polygons.map(polygon => polygon.map(ring => {
      const found = [];
      for (let i = 0; i < ring.length; i += 2) found.push(latLng(ring[i], ring[i + 1]));
      return found;
    }));
    L.polygon(rings, {
      renderer: this.renderer, pane: "ground", stroke: false, fillColor: colour, fillOpacity: 1, smoothFactor: 0.6,
      interactive: false,
    }).addTo(this.layer);
  }
}
