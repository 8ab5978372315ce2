// The route: asked whenever its places, its time or the network change; drawn as a line, told street by street.

import { clock, distance, minute, span } from "./clock.js";
import { at, fill, legend, make, wrong } from "./dom.js";
import { metresOf, streets, stretches, waitOf } from "./drive.js";
import { along, colours, onTheme, SLOW_WORDS } from "./palette.js";
import { address, ask, newest } from "./service.js";
import { isWhole, onChange, state } from "./state.js";
import { latLng, places } from "./world.js";

const { L } = window;

export function routeWords() {
  const words = state.places.map(place => place.word);
  return { from: words[0], to: words.at(-1), via: words.slice(1, -1).join(";"), [state.by]: clock(state.time) };
}

function placeWords() {
  return state.places.map(place => place?.word).join(";");
}

// What is to be chosen next.
function toChoose() {
  if (!state.places.some(Boolean)) return "Click on the map where the route begins, and then where it ends.";
  const missing = state.places.indexOf(null);
  if (missing === 0) return "Choose where the route begins.";
  return missing < state.places.length - 1 ? `Choose stop ${missing}, or take it out.` : "Choose where the route ends.";
}

export class Route {
  constructor(chart, onFound) {
    this.chart = chart;
    this.onFound = onFound;
    this.found = null;
    this.keepView();
    this.layer = L.layerGroup().addTo(chart.map);
    this.ask = newest((words, isLast) => this.askOnce(words, isLast));
    onChange(names => {
      if (names.includes("view")) this.keepView();
      if (["places", "time", "by", "mode", "profile"].some(name => names.includes(name))) {
        this.refresh(false, names.includes("places"));
      }
    });
    onTheme(() => { if (this.found) this.take(this.found); });
    this.refresh();
  }

  // Asks anew; where the same was asked before, of the same version, only what is shown is shown anew. Of places that an
  // address names it is known later where they are.
  refresh(isOther = false, areKnown = false) {
    const words = state.mode === "route" && isWhole() ? routeWords() : null, key = words && JSON.stringify(words);
    if (key && key === this.key && this.found && !isOther) {
      this.take(this.found);
      return areKnown && this.chart.fitted ? this.show() : undefined;
    }
    this.key = key;
    return words ? this.ask(words) : this.take(null);
  }

  async askOnce(words, isLast) {
    const slow = setTimeout(() => this.wait(), 400);
    // Meanwhile a place may have been cleared, or something else is shown.
    const isWanted = () => isLast() && this.key === JSON.stringify(words);
    try {
      const found = await ask("page/route", words);
      if (!isWanted()) return;
      this.take(found);
      this.showOnce();
    } catch (problem) {
      if (isWanted() && problem.status) this.take(null, problem);
    } finally {
      clearTimeout(slow);
      at("answer").removeAttribute("aria-busy");
    }
  }

  // What stands there is of what was asked before, or says what to choose.
  wait() {
    if (!this.key) return;
    at("answer").setAttribute("aria-busy", "true");
    if (!this.found) fill(at("answer"), make("p", { className: "soft" }, "The route is being worked out …"));
  }

  take(found, problem) {
    this.found = found?.legs ? found : null;
    this.draw();
    this.tell(found, problem);
    this.onFound(this.found);
  }

  // ---- the line ----

  draw() {
    this.layer.clearLayers();
    if (!this.found) return;
    const line = (spots, color, weight, more) => L.polyline(spots, {
      color, weight, interactive: false, lineCap: "round", lineJoin: "round", opacity: 1, ...more,
    }).addTo(this.layer);
    for (const leg of this.found.legs) line(places(leg.line), colours().casing, 9);
    for (const leg of this.found.legs) {
      for (const { level, from, to } of stretches(leg)) line(places(leg.line, from, to), along(level), 5.5);
    }
    this.drawFeet(line);
    for (const leg of this.found.legs) {
      for (const wait of streets(leg).flatMap(street => street.waits)) this.drawWait(leg, wait);
    }
  }

  // Dotted, from a place to where it meets the road.
  drawFeet(line) {
    state.places.forEach((place, index) => {
      const foot = this.found.places[index];
      if (!place || place.x === null || !foot) return;
      line([latLng(place.x, place.y), latLng(foot.x, foot.y)], colours().soft, 2, { dashArray: "1 5" });
    });
  }

  drawWait(leg, wait) {
    const point = leg.points[wait.road], spot = latLng(leg.line[2 * point], leg.line[2 * point + 1]);
    L.circleMarker(spot, { radius: 6, color: "#ffffff", weight: 2, fillColor: "#b26a00", fillOpacity: 1 })
      .bindTooltip(`waits until ${clock(wait.until)}`).addTo(this.layer);
  }

  // The places whose route has been shown: those of an address with a view have that one.
  keepView() {
    this.shown = state.view ? placeWords() : null;
  }

  // Whoever looks at a part of the route goes on doing so at another time.
  showOnce() {
    const words = placeWords();
    if (words !== this.shown) this.show();
    this.shown = words;
  }

  // Shows all of a route with its pins, where one of these or where it meets a road is outside of the view.
  show() {
    if (!this.found) return;
    const ends = [...this.found.places, ...state.places].filter(place => place && place.x !== null)
      .map(place => latLng(place.x, place.y));
    if (ends.every(spot => this.chart.map.getBounds().contains(spot))) return;
    const line = this.found.legs.flatMap(leg => places(leg.line));
    this.chart.fit({ padding: [40, 40] }, L.latLngBounds([...ends, ...line]));
  }

  // ---- in words ----

  tell(found, problem) {
    at("streets").replaceChildren();
    at("downloads").hidden = at("slowness").hidden = !this.found;
    if (problem) return fill(at("answer"), wrong(problem));
    if (!found) {
      return fill(at("answer"), isWhole() ? null : make("p", { className: "soft" }, toChoose()));
    }
    if (!this.found) return fill(at("answer"), wrong({ message: this.refusal(found.answer) }));
    this.tellFound(found);
    return undefined;
  }

  refusal(answer) {
    return answer === "too late" ? `Even who leaves at midnight isn't there by ${clock(state.time)}.`
      : "No way leads there.";
  }

  tellFound(found) {
    const metres = metresOf(found), wait = waitOf(found), roads = found.legs.flatMap(leg => leg.roads).length;
    const far = metres ? distance(metres) : `${roads} road${roads === 1 ? "" : "s"}`;
    fill(at("answer"),
      make("p", { className: "big" }, span(found.travel)),
      make("p", {}, `${clock(found.depart)} → ${clock(found.arrive)}, ${far}`),
      wait ? make("p", { className: "soft" }, `of which ${span(wait)} of waiting`) : null);
    this.tellDownloads();
    this.tellSlowness(found);
    const rows = found.legs.map((leg, index) => [
      this.stop(found, index), ...streets(leg).map(street => this.row(leg, street))]);
    fill(at("streets"), rows.flat(), this.stop(found, found.legs.length));
  }

  tellSlowness(found) {
    const levels = new Set(found.legs.flatMap(leg => stretches(leg).map(part => part.level)));
    // Of those that share a colour the least slow one is told.
    const words = new Map([...levels].sort().reverse().map(level => [along(level), SLOW_WORDS[level]]));
    at("slowness").hidden = words.size < 2;
    legend(at("slowness"), [...words].reverse());
  }

  tellDownloads() {
    at("downloads").hidden = this.chart.found.is_plane;
    for (const format of ["gpx", "geojson"]) at(format).href = address("route", { ...routeWords(), format });
  }

  stop(found, index) {
    const second = index < found.legs.length ? found.legs[index].depart : found.arrive, place = found.places[index];
    const said = state.places[index]?.name ?? place.name;
    return make("li", { className: "stop" }, make("time", { title: clock(second) }, minute(second).slice(0, 5)),
      make("span", { className: "name" }, said || "Here"));
  }

  row(leg, street) {
    const told = [
      make("time", { title: clock(street.entered) }, minute(street.entered).slice(0, 5)),
      make("span", { className: "name slow", style: { borderLeftColor: along(street.level) } }, street.name),
      make("span", { className: "metres" }, street.metres ? distance(street.metres) : span(street.taken)),
      ...street.waits.map(wait => make("span", { className: "wait" },
        `waits ${span(wait.until - wait.at)}, until ${clock(wait.until)}`)),
    ];
    const row = make("button", { title: "Show it on the map" }, told);
    const spots = places(leg.line, street.from, street.to);
    const show = () => this.chart.map.fitBounds(L.latLngBounds(spots), { padding: [60, 60], maxZoom: 17 });
    row.onclick = show;
    row.onmouseenter = row.onfocus = () => this.highlight(spots);
    row.onmouseleave = row.onblur = () => this.lit?.remove();
    return make("li", {}, row);
  }

  highlight(spots) {
    this.lit?.remove();
    const look = { color: colours().mark, weight: 8, opacity: 0.7, interactive: false };
    this.lit = L.polyline(spots, look).addTo(this.chart.map);
  }
}
