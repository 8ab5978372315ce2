// Puts together what is shown of a network.

import { Chart } from "./chart.js";
import { clock } from "./clock.js";
import { Day } from "./day.js";
import { Dock } from "./dock.js";
import { at } from "./dom.js";
import { Follower } from "./follow.js";
import { Middle } from "./middle.js";
import { onTheme, slow, theme } from "./palette.js";
import { Places } from "./places.js";
import { Reach } from "./reach.js";
import { BACKWARD, FORWARD, isDrawing, SHUT } from "./roads.js";
import { Route } from "./route.js";
import { ask, bytes, newest, onReachable } from "./service.js";
import { MODES, onChange, state, writeNow } from "./state.js";
import { Traffic } from "./traffic.js";

const LEVELS = 15;
const SLOWEST = 5;

function trafficStyles() {
  return Array.from({ length: SLOWEST + 1 }, (_, level) => ({ colour: slow(level), width: 1.2 }));
}

export class Page {
  constructor(setting, notice) {
    this.notice = notice;
    this.profile = state.profile;
    this.theme = null;          // the one of the screen, while paper has another
    this.chart = new Chart(at("map"), setting);
    this.askRoads = newest((time, isLast) => this.askRoadsOnce(time, isLast));
    this.dock = new Dock();
    this.day = new Day();
    this.traffic = new Traffic(this.chart, setting);
    this.route = new Route(this.chart, found => { this.dock.say(found); this.day.mark(found?.depart ?? null); });
    this.reach = new Reach(this.chart, (bands, styles) => this.paint(bands, styles));
    this.places = new Places(this.chart, notice);
    const click = this.chart.onClick;
    this.chart.onClick = (spot, event) => (
      state.mode === "traffic" ? this.traffic.click(spot, event) : click(spot, event));
    this.middle = new Middle(this.chart);
    this.chart.onPoint = (street, spot) => this.point(street, spot);
    this.chart.roads.on("other", () => this.leaveOther());
    this.follower = new Follower(setting.version, version => this.changed(version));
    // What was chosen while the service was gone has no answer yet.
    onReachable(isThere => { if (isThere) this.askAnew(); });
    this.showMode();
    onChange(names => {
      if (names.includes("mode")) this.showMode();
      if (names.includes("time") || names.includes("mode")) this.askRoads(state.time);
      if (names.includes("view") && state.view && state.view !== this.chart.viewNow()) this.chart.show(state.view);
      if (state.profile !== this.profile) {
        writeNow();
        location.reload();
      }
    });
    onTheme(() => {
      if (state.mode === "reach") this.reach.refresh();
      if (state.mode === "traffic") this.askRoads(state.time);
      this.traffic.tellDelays();
    });
    window.addEventListener("beforeprint", () => this.print());
    window.addEventListener("afterprint", () => this.printed());
    this.askRoads(state.time);
  }

  isDrawing() {
    return isDrawing();
  }

  // ---- roads ----

  // In which directions roads may be driven at a time, and how slow they are.
  async askRoadsOnce(time, isLast) {
    const { data } = await bytes("page/traffic", { at: clock(time) });
    if (!isLast()) return;
    const ways = data.map(byte => byte & (FORWARD | BACKWARD | SHUT)), { roads } = this.chart;
    const isSame = roads.ways && ways.every((way, street) => way === roads.ways[street]);
    roads.ways = ways;
    if (state.mode === "traffic") this.paint(data.map(byte => byte & LEVELS), trafficStyles());
    else if (!isSame) roads.restyle();
  }

  paint(classes, styles) {
    const { roads } = this.chart;
    roads.classes = classes;
    roads.styles = styles;
    roads.restyle();
  }

  // The name of the street under the pointer.
  async point(street, spot) {
    at("hover").hidden = true;
    this.pointed = street;
    if (street < 0) return;
    const { name } = await ask("page/street", { street }).catch(() => ({ name: "" }));
    if (!name || this.pointed !== street) return;
    const box = at("map").getBoundingClientRect();
    const left = Math.min(spot.x + 12, box.width - 170), top = Math.max(spot.y - 30, 4);
    Object.assign(at("hover").style, { left: `${left}px`, top: `${top}px` });
    at("hover").textContent = name;
    at("hover").hidden = false;
  }

  // ---- paper ----

  print() {
    this.theme ??= theme();
    this.chart.print();
    this.paperTheme("light");
  }

  printed() {
    if (this.theme) this.paperTheme(this.theme);
    this.theme = null;
  }

  // Paper is light. The curve is drawn anew at once; roads keep their colours, which are seen on both grounds.
  paperTheme(name) {
    document.documentElement.dataset.theme = name;
    this.day.draw();
  }

  // ---- what is shown ----

  showMode() {
    for (const mode of MODES) {
      at(`pane-${mode}`).hidden = mode !== state.mode;
      at(`tab-${mode}`).setAttribute("aria-selected", String(mode === state.mode));
      at(`tab-${mode}`).tabIndex = mode === state.mode ? 0 : -1;
    }
    if (state.mode === "route") this.paint(null, []);
  }

  // Another version is served: all is asked anew.
  async changed(version) {
    if (await this.leaveOther()) return;
    this.notice.say("version", `The network has changed: version ${version}.`, "good");
    this.askAnew();
  }

  // Loads the page again where the service has another map: other roads have other numbers.
  async leaveOther() {
    const { map } = await ask("page/setting").catch(() => ({ map: this.chart.found }));
    const isOther = map?.name !== this.chart.found.name;
    if (isOther) location.reload();
    return isOther;
  }

  askAnew() {
    this.askRoads(state.time);
    this.route.refresh(true);
    this.day.refresh(true);
    this.reach.refresh();
    this.traffic.refresh();
  }
}
