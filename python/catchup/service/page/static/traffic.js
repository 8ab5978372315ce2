// Traffic: roads by how slow they are, and where writes are allowed roads that are closed or slowed.

import { distance, minute, readTime, span } from "./clock.js";
import { at, fill, legend, make, wrong } from "./dom.js";
import { changed, takes } from "./hours.js";
import { colours, slow, SLOW_WORDS } from "./palette.js";
import { ask, edit } from "./service.js";
import { speak } from "./speak.js";
import { onChange, state } from "./state.js";
import { places } from "./world.js";

const { L } = window;
const WINDS = ["north", "north-east", "east", "south-east", "south", "south-west", "west", "north-west"];
const TOKEN = "catchup-token";
const CLICKED = 14;             // pixels from a click within which a road is chosen
const NO_ROAD = "Move one there by the arrow keys, or zoom in.";

// Where a line leads, as a wind.
function windOf(line) {
  const [[x, y], [u, v]] = [line[0], line.at(-1)];
  return WINDS[Math.round(Math.atan2(u - x, y - v) / (Math.PI / 4) + 8) % 8];
}

function field(name, id, checked = false, label = null) {
  return make("input", { type: "radio", name, id, checked, "aria-label": label });
}

// What a street is called, or the number of its first road. Streets of a map have a class.
export function streetName(street) {
  return street.name || `${street.class ? "Unnamed road" : "Road"} ${street.ways[0].roads[0]}`;
}

function good(text) {
  return make("p", { className: "good-box" }, text);
}

function hint() {
  const byKeys = make("span", { className: "by-keys" },
    " By the keyboard: move it into the middle of the map and press Enter there.");
  return make("p", { className: "soft" }, "Click on a road to close it or to slow it down.", byKeys);
}

function choice(...inside) {
  return make("label", { className: "choice" }, ...inside);
}

// The edits that make roads what they were: they get their profiles back where these are still the same, so that others
// may have their own ones, and else the pieces that they had.
async function restored(before) {
  const numbers = [...new Set(before.map(each => each.profile))], days = new Map();
  await Promise.all(numbers.map(async number => {
    const { pieces } = await ask("page/profile", { number }).catch(() => ({ pieces: null }));
    days.set(number, JSON.stringify(pieces));
  }));
  return before.map(({ road, profile, pieces }) => (
    days.get(profile) === JSON.stringify(pieces) ? { road, profile } : { road, pieces }));
}

export class Traffic {
  constructor(chart, setting) {
    this.chart = chart;
    this.needsToken = setting.token;
    this.made = [];
    this.street = null;
    this.round = 0;             // of choosing a road: of several the last one counts
    this.tellDelays();
    onChange(names => {
      if (names.includes("mode") || names.includes("profile")) this.choose(null);
      if (names.includes("time")) this.tellWays();
    });
    this.choose(null);
    this.showMade();
  }

  tellDelays() {
    const rows = SLOW_WORDS.map((word, level) => [slow(level), word]);
    legend(at("delays"), [...rows, [colours().shut, "closed", "dashed"]]);
  }

  // Whoever chose a road by keys goes on in its form.
  async click(spot, { isByKeys = false, pixels = CLICKED } = {}) {
    const street = this.chart.streetAt(spot, pixels), round = ++this.round;
    if (street < 0) {
      this.choose(null);
      if (isByKeys) fill(at("road"), wrong({ message: "There is no road in the middle of the map.", hint: NO_ROAD }));
      return;
    }
    let found = null, said = null;
    try {
      found = await ask("page/street", { street });
    } catch (problem) {
      if (problem.status) said = wrong(problem);
    }
    // Another one was chosen meanwhile.
    if (round !== this.round) return;
    this.choose(found);
    if (said) fill(at("road"), said);
    if (found && isByKeys) at("way-0").focus();
  }

  choose(street) {
    this.street = street;
    this.lit?.remove();
    if (!street) { this.leave(hint()); return; }
    const look = { color: colours().mark, weight: 8, opacity: 0.6, interactive: false };
    this.lit = L.polyline(places(street.line.flat()), look).addTo(this.chart.map);
    this.showForm();
  }

  // Shows something in the place of the form. Where that had the focus the map gets it.
  leave(...shown) {
    const isLeft = at("road").contains(document.activeElement);
    fill(at("road"), ...shown);
    if (isLeft) this.chart.map.getContainer().focus({ preventScroll: true });
  }

  // ---- the form ----

  showForm() {
    const { street } = this, name = streetName(street);
    const far = street.metres ? distance(street.metres) : null;
    const more = [street.class?.replace(/_/g, " "), far].filter(Boolean).join(", ");
    const form = make("fieldset", {},
      make("legend", {}, name), more ? make("p", { className: "soft" }, more) : null,
      street.ways.map((way, index) => this.way(way, index)),
      this.actions(), this.hours(), this.needsToken ? this.token() : null,
      make("div", { className: "buttons" },
        make("button", { className: "main", id: "apply", onclick: () => this.apply() }, "Close the road"),
        make("button", { onclick: () => this.choose(null) }, "Cancel")),
      make("div", { id: "told" }));
    fill(at("road"), form);
    form.addEventListener("input", () => this.nameButton());
    form.addEventListener("keydown", event => this.key(event));
  }

  key(event) {
    const isTyped = event.target.matches("input:not([type=checkbox], [type=radio])");
    if (event.key === "Escape") this.choose(null);
    else if (event.key === "Enter" && isTyped) this.apply();
    else return;
    event.preventDefault();
  }

  way(way, index) {
    return choice(make("input", { type: "checkbox", id: `way-${index}`, checked: true }),
      make("span", { id: `taken-${index}` }, this.said(way)));
  }

  // What a direction takes at the time of day that is shown.
  said(way) {
    const wind = windOf(way.is_forward ? this.street.line : [...this.street.line].reverse());
    const taken = takes(way.pieces, state.time);
    const slower = taken > (way.free ?? taken) ? ` at ${minute(state.time)}, ${span(way.free)} when free` : "";
    const said = taken === null ? "closed" : span(taken) + slower;
    return `${this.street.ways.length > 1 ? "to the" : "one way, to the"} ${wind}: ${said}`;
  }

  // The same at another time, or of another version; what was chosen stays.
  tellWays() {
    this.street?.ways.forEach((way, index) => { at(`taken-${index}`).textContent = this.said(way); });
  }

  actions() {
    return [
      choice(field("what", "close", true), "Close it"),
      choice(field("what", "slow"), "Slow it: ", make("input", {
        type: "number", id: "factor", min: "1", max: "50", step: "0.5", value: "3",
        "aria-label": "How many times as long",
      }), " times as long"),
    ];
  }

  hours() {
    const hour = Math.floor(state.time / 3600);
    const time = (id, second, label) => make("input", { id, size: 5, value: minute(second), "aria-label": label });
    return [
      choice(field("when", "all-day", true), "All day"),
      make("div", { className: "choice" }, field("when", "some-hours", false, "Some hours"),
        "From ", time("since", hour * 3600, "From what time"),
        " to ", time("until", (hour + 2) % 24 * 3600, "Until what time")),
    ];
  }

  token() {
    const input = make("input", {
      type: "password", id: "token", autocomplete: "off", value: sessionStorage.getItem(TOKEN) ?? "" });
    input.oninput = () => sessionStorage.setItem(TOKEN, input.value);
    return choice("Token ", input);
  }

  nameButton() {
    at("apply").textContent = at("close").checked ? "Close the road" : "Slow the road down";
    const active = document.activeElement?.id;
    if (active === "since" || active === "until") at("some-hours").checked = true;
    if (active === "factor") at("slow").checked = true;
  }

  // What is asked for, or a word that says what is wrong with it.
  wanted() {
    const isClosed = at("close").checked, factor = isClosed ? null : Number(at("factor").value);
    const ways = this.street.ways.filter((_, index) => at(`way-${index}`).checked);
    if (!ways.length) throw new Error("Choose a direction.");
    if (!isClosed && !(factor >= 1 && factor <= 50)) throw new Error("A slow road takes 1 to 50 times as long.");
    const [from, to] = at("all-day").checked ? [0, 0] : [readTime(at("since").value), readTime(at("until").value)];
    if (from === null || to === null) throw new Error("A time is written as 08:30.");
    const isAllDay = from === to;
    const open = ways.filter(way => way.pieces.every(piece => piece.kind !== "closed"));
    if (!open.length) throw new Error("The road is closed already.");
    const edits = open.flatMap(way => way.roads.map(road => (isAllDay && isClosed ? { road, closed: true }
      : { road, pieces: changed(way.pieces, { factor, from, to }) })));
    const when = isAllDay ? "all day" : `from ${minute(from)} to ${minute(to)}`;
    const said = `${isClosed ? "closed" : `${factor} times as long`} ${when}`;
    return { edits, before: open.flatMap(way => way.before), said };
  }

  async apply() {
    let wanted;
    try {
      wanted = this.wanted();
    } catch (problem) {
      fill(at("told"), wrong(problem));
      return;
    }
    const name = streetName(this.street);
    const version = await this.send(wanted.edits, at("told"), at("apply"));
    if (!version) return;
    this.made.unshift({ name, said: wanted.said, before: wanted.before, version });
    this.confirm(`${name}: ${wanted.said}. Confirmed as version ${version}.`);
    this.showMade();
  }

  confirm(text) {
    this.choose(null);
    fill(at("road"), good(text), hint());
    speak(text);
  }

  // The version that has some edits; null where they are refused, which is told.
  async send(edits, place, button) {
    const isFocused = document.activeElement === button;
    button.disabled = true;
    fill(place, make("p", { className: "soft" }, "The edit is being made …"));
    speak("The edit is being made …");
    try {
      const { version } = await edit(edits, this.needsToken ? sessionStorage.getItem(TOKEN) : null);
      return version;
    } catch (problem) {
      fill(place, wrong(this.why(problem)));
      return null;
    } finally {
      button.disabled = false;
      // One that is disabled loses the focus.
      if (isFocused && document.activeElement === document.body) button.focus({ preventScroll: true });
    }
  }

  why(problem) {
    const words = (problem.more?.refused ?? []).map(line => line.word).join(", ");
    if (words) return { message: `The edit was refused: ${words}.`, hint: "Nothing has changed." };
    if (problem.status === 401) return { message: "The token isn't the service's.", hint: problem.hint };
    return { message: `The edit wasn't made: ${problem.message}`, hint: problem.hint };
  }

  // ---- what was done from here ----

  showMade() {
    if (!this.made.length) { at("edits").replaceChildren(); return; }
    const told = make("div");
    fill(at("edits"), make("h2", {}, "Changed from here"), make("ul", {}, this.made.map(each => {
      const undo = make("button", { "aria-label": `Undo: ${each.name} ${each.said}` }, "Undo");
      undo.onclick = () => this.undo(each, told, undo);
      const said = make("small", {}, `${each.said}, version ${each.version}`);
      return make("li", {}, make("span", {}, each.name, said), undo);
    })), told);
  }

  async undo(each, told, button) {
    const version = await this.send(await restored(each.before), told, button);
    if (!version) return;
    this.made = this.made.filter(other => other !== each);
    this.confirm(`${each.name} is as it was. Confirmed as version ${version}.`);
    this.showMade();
    // The button is gone that was pressed.
    (at("edits").querySelector("button") ?? this.chart.map.getContainer()).focus({ preventScroll: true });
  }

  // The state of the chosen street under another version.
  async refresh() {
    if (this.street && state.mode === "traffic") {
      const found = await ask("page/street", { street: this.street.street }).catch(() => null);
      if (found && this.street?.street === found.street) {
        this.street = found;
        this.tellWays();
      }
    }
  }
}

