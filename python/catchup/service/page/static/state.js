// What the page shows, and its address, which keeps all of it.

import { clock, DAY, readTime } from "./clock.js";

export const MODES = ["route", "reach", "traffic"];

// A place is { word, name, x, y }: the word by which the service takes it, and where it is once that is known; null
// where none is chosen yet. The first is where a route begins, the last where it ends.
export const state = {
  mode: "route", places: [null, null], time: 28800, by: "depart", within: 900, view: null, profile: null,
};

const PAUSE = 200;
const watchers = new Set();
let seen = location.hash;       // the address that was last read or written
let pending = null;

// Calls back after each change, with the names of what has changed.
export function onChange(call) {
  watchers.add(call);
}

export function change(what) {
  Object.assign(state, what);
  write();
  const names = Object.keys(what);
  for (const call of watchers) call(names);
}

export function isWhole() {
  return state.places.every(Boolean);
}

function words() {
  const found = {}, [first, ...rest] = state.places, last = rest.pop();
  if (state.mode !== "route") found.mode = state.mode;
  if (state.profile) found.profile = state.profile;
  if (first) found.from = first.word;
  if (rest.some(Boolean)) found.via = rest.filter(Boolean).map(place => place.word).join(";");
  if (last) found.to = last.word;
  found[state.by] = clock(state.time);
  if (state.within !== 900) found.within = state.within;
  if (state.view) found.map = state.view;
  return found;
}

// Browsers take no more than some hundred addresses in half a minute: of those that follow one another the last counts.
function write() {
  pending ??= setTimeout(writeNow, PAUSE);
}

export function writeNow() {
  clearTimeout(pending);
  pending = null;
  // These need no escape behind a #, and read better.
  const plain = value => encodeURIComponent(value).replace(/%(3A|2C|3B|2F)/g, decodeURIComponent);
  const text = "#" + Object.entries(words()).map(([name, value]) => `${name}=${plain(value)}`).join("&");
  // One that was changed meanwhile is about to be read.
  if (text === seen || location.hash !== seen) return;
  seen = text;
  history.replaceState(null, "", text);
}

export function setView(view) {
  state.view = view;
  write();
}

// What an address says; what it doesn't say is as at the beginning.
function read(hash) {
  const found = new URLSearchParams(hash.slice(1)), mode = found.get("mode");
  const time = word => /^\d+$/.test(word) && Number(word) > 2400 ? Math.min(Number(word), DAY - 1) : readTime(word);
  const by = found.has("arrive") ? "arrive" : "depart", within = Number(found.get("within"));
  const place = word => (word ? known(word) : null), via = (found.get("via") ?? "").split(";").filter(Boolean);
  return {
    mode: MODES.includes(mode) ? mode : "route", by, time: time(found.get(by) ?? "") ?? state.time,
    places: [place(found.get("from")), ...via.map(place), place(found.get("to"))],
    within: within >= 60 && within <= DAY ? within : 900, view: found.get("map"), profile: found.get("profile"),
  };
}

function known(word) {
  return state.places.find(place => place?.word === word) ?? { word, name: null, x: null, y: null };
}

export function begin(now) {
  state.time = now;
  Object.assign(state, read(location.hash));
  window.addEventListener("hashchange", () => {
    if (location.hash === seen) return;
    clearTimeout(pending);
    pending = null;
    seen = location.hash;
    change(read(location.hash));
  });
}
