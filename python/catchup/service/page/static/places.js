// The places of a route: fields in the panel, and pins on the map.

import { at, fill, isByKeys, make } from "./dom.js";
import { Finder } from "./finder.js";
import { openMenu } from "./menu.js";
import { kindOf, letterOf, Pins } from "./pins.js";
import { ask, askUntil, newest, Problem } from "./service.js";
import { speak } from "./speak.js";
import { change, onChange, state } from "./state.js";
import { worldOf } from "./world.js";

const SAID = { first: "From: street or number", last: "To" };

// What a field shows of a place.
export function nameOf(place) {
  return place ? place.name ?? place.word : "";
}

export function set(index, place) {
  const places = [...state.places];
  places[index] = place;
  change({ places });
}

// A place as it is told: From, To, Stop 1.
function roleOf(index, places) {
  const kind = kindOf(index, places);
  return kind === "first" ? "From" : kind === "last" ? "To" : `Stop ${index}`;
}

export class Places {
  constructor(chart, notice) {
    this.chart = chart;
    this.notice = notice;
    this.pins = new Pins(chart, {
      find: spot => this.find(spot),
      onPlace: (index, place) => this.put(index, place),
      onRemove: index => this.remove(index),
    });
    this.fields = [];
    this.asked = new Map();     // spots that were chosen, by index, whose places are on their way
    this.resolve = newest(() => this.resolveAll());
    chart.onClick = (place, event) => this.click(place, event);
    at("add").onclick = event => this.add(event);
    at("swap").onclick = () => change({ places: [...state.places].reverse() });
    at("clear").onclick = event => this.clear(event);
    onChange(names => {
      if (names.includes("places") || names.includes("mode")) this.show();
      // What it offers is of a route.
      if (names.includes("mode")) chart.map.closePopup();
      if (names.includes("places")) this.resolve();
    });
    this.show();
    this.resolve();
  }

  middle() {
    return worldOf(this.chart.map.getCenter());
  }

  // Fields and markers as the places are. Fields are kept where their number is the same, with what somebody types.
  show() {
    const shown = state.mode === "route" ? state.places : state.places.slice(0, 1);
    const list = at(state.mode === "reach" ? "start" : "places");
    if (this.fields.length !== shown.length || this.list !== list) this.build(list, shown);
    this.fields.forEach(({ finder, letter }, index) => {
      finder.set(nameOf(shown[index]));
      letter.className = `letter ${kindOf(index, state.places)}`;
      letter.textContent = letterOf(index, state.places);
    });
    at("swap").disabled = at("clear").disabled = !state.places.some(Boolean);
    this.pins.show(state.mode === "traffic" ? [] : shown);
  }

  // Fields that come and go leave the focus to their neighbours, for whoever uses keys.
  add(event) {
    change({ places: [...state.places.slice(0, -1), null, state.places.at(-1)] });
    if (isByKeys(event)) this.fields.at(-2).finder.input.focus();
  }

  clear(event) {
    this.asked.clear();
    change({ places: [null, null] });
    if (isByKeys(event)) this.fields[0].finder.input.focus();
  }

  build(list, shown) {
    this.list?.replaceChildren();
    this.list = list;
    this.fields = shown.map((_, index) => this.field(index, kindOf(index, state.places)));
    fill(list, this.fields.map(field => field.row));
  }

  field(index, kind) {
    const label = SAID[kind] ?? `Stop ${index}`;
    const finder = new Finder(label, () => this.middle(), place => set(index, place));
    finder.onLeave = () => finder.set(nameOf(state.places[index]));
    const letter = make("span", { "aria-hidden": "true" });
    const title = kind === "via" ? "Take this stop out" : "Clear this place";
    const remove = make("button", { title, "aria-label": title }, "×");
    remove.onclick = event => {
      this.remove(index);
      if (isByKeys(event)) this.fields[index].finder.input.focus();
    };
    return { finder, letter, row: make("li", { className: "place" }, letter, finder.input, remove, finder.list) };
  }

  // Takes a stop out, or clears the start or the end.
  remove(index) {
    const role = roleOf(index, state.places);
    this.asked.clear();
    if (kindOf(index, state.places) === "via") change({ places: state.places.filter((_, other) => other !== index) });
    else set(index, null);
    speak(role.startsWith("Stop") ? `${role} is taken out.` : `${role}: nothing is chosen.`);
  }

  // The place of a click: the next that is missing, or the one that is chosen in a small list.
  click(spot, event) {
    // Of two clicks that zoom the second takes nothing.
    if (state.mode === "traffic" || this.pins.isDropped() || event.originalEvent?.detail > 1) return;
    if (state.mode === "reach") { this.take(0, spot); return; }
    const missing = state.places.findIndex((place, index) => place === null && !this.asked.has(index));
    if (missing >= 0 && event.type === "click") this.take(missing, spot);
    else this.choose(spot, event.isByKeys);
  }

  choose(spot, isByKeys) {
    openMenu(this.chart.map, spot, [
      ["From here", () => this.take(0, spot)],
      ["Over here", () => {
        change({ places: [...state.places.slice(0, -1), null, state.places.at(-1)] });
        this.take(state.places.length - 2, spot);
      }],
      ["To here", () => this.take(state.places.length - 1, spot)],
    ], isByKeys);
  }

  async take(index, spot) {
    this.asked.set(index, spot);
    const place = await this.find(spot);
    // Another one was chosen meanwhile, or none.
    if (this.asked.get(index) !== spot) return;
    this.asked.delete(index);
    this.put(index, place);
  }

  // The place at a spot of the map: where it meets a road, and what that is called; null where there is none. One that
  // is chosen while the service is gone comes when it is back.
  async find(spot) {
    try {
      const { place: word, name, x, y } = await askUntil("page/near", worldOf(spot));
      return { word, name, x, y };
    } catch (problem) {
      this.notice.problem(problem);
      return null;
    }
  }

  put(index, place) {
    if (!place) { this.show(); return; }
    set(index, place);
    speak(`${roleOf(index, state.places)}: ${nameOf(place)}.`);
  }

  // Looks up places that an address or a version before has named.
  async resolveAll() {
    for (const place of state.places.filter(each => each && each.x === null)) {
      try {
        const { places: [found] } = await ask("page/search", { q: place.word });
        if (!found) throw new Problem(400, `There is no place ${place.word} on this network.`);
        const isNamed = !/^-?[0-9.]+,-?[0-9.]+$/.test(place.word);
        const near = isNamed ? found : await ask("page/near", { x: found.x, y: found.y });
        const known = { ...place, name: near.name, x: found.x, y: found.y };
        change({ places: state.places.map(each => (each === place ? known : each)) });
      } catch (problem) {
        if (problem.status) {
          this.notice.problem(problem);
          change({ places: state.places.map(each => (each === place ? null : each)) });
        }
        return;
      }
    }
  }
}
