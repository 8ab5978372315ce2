// A field for a place: streets by their names, nodes and roads by their numbers, and coordinates.

import { make } from "./dom.js";
import { ask, askUntil, newest } from "./service.js";

const PAUSE = 130;
let count = 0;

export class Finder {
  // `middle` says where the map is, so that near places come first; `onChoose` gets the place, or null.
  constructor(label, middle, onChoose) {
    this.id = `finder-${count++}`;
    this.middle = middle;
    this.onChoose = onChoose;
    this.found = [];
    this.chosen = -1;
    this.text = null;           // what was typed when that was found
    this.round = 0;             // of typing: what was asked in another one than the last isn't shown any more
    this.taken = null;          // the round in which a key took what will be found
    this.input = make("input", {
      type: "text", placeholder: label, autocomplete: "off", spellcheck: false, role: "combobox", "aria-label": label,
      "aria-expanded": "false", "aria-autocomplete": "list", "aria-controls": this.id });
    this.list = make("ul", { className: "found", id: this.id, role: "listbox", "aria-label": "Places", hidden: true });
    this.search = newest(question => this.look(question));
    this.listen();
  }

  set(text) {
    if (document.activeElement !== this.input || !this.isTyped) this.input.value = text;
  }

  listen() {
    this.input.addEventListener("input", () => {
      this.isTyped = true;
      const question = { text: this.input.value, round: this.next() };
      this.pause = setTimeout(() => this.search(question), PAUSE);
    });
    this.input.addEventListener("keydown", event => this.key(event));
    this.input.addEventListener("focus", () => this.input.select());
    this.input.addEventListener("blur", () => setTimeout(() => this.leave(), 150));
    this.list.addEventListener("pointerdown", event => event.preventDefault());
    this.list.addEventListener("click", event => {
      const row = event.target.closest("[role=option]");
      if (row) this.choose(Number(row.dataset.at));
    });
  }

  key(event) {
    const step = { ArrowDown: 1, ArrowUp: -1 }[event.key];
    if (step && this.found.length) {
      event.preventDefault();
      this.text = this.input.value;
      this.mark((this.chosen + step + this.found.length) % this.found.length);
    } else if (event.key === "Enter") {
      event.preventDefault();
      this.take();
    } else if (event.key === "Tab") {
      // Whoever goes on to the next field takes what is marked.
      this.take();
    } else if (event.key === "Escape") {
      this.drop();
    }
  }

  // Leaves what is typed, and has the place again that was there.
  drop() {
    this.close();
    this.isTyped = false;
    this.onLeave?.();
  }

  // The place that is marked. Where what is typed has no answer yet, the first that will be found, wherever the focus
  // is by then, and once the service is back where it is gone. A name that nobody typed stays: others may have it too.
  async take() {
    const text = this.input.value;
    if (!this.isTyped) return;
    if (!text.trim()) { this.clear(); return; }
    if (this.found.length && this.text === text) { this.choose(Math.max(this.chosen, 0)); return; }
    const round = this.taken = this.next(), places = await this.find(text, askUntil).catch(() => null);
    // Somebody has typed on, or taken the field away.
    if (round !== this.round || !this.input.isConnected) return;
    this.taken = null;
    this.found = places ?? [];
    this.text = text;
    if (this.found.length) this.choose(0);
    else if (document.activeElement !== this.input) this.leave();
    else if (places) this.show();
  }

  // Begins another round: nothing is asked or shown any more of the one before.
  next() {
    clearTimeout(this.pause);
    return ++this.round;
  }

  leave() {
    // A place that was taken by a key is on its way, or the field is gone, as with its stop, or has the focus again.
    const isOver = this.input.isConnected && document.activeElement !== this.input;
    if (!isOver || this.taken === this.round) return;
    if (this.isTyped && !this.input.value.trim()) this.clear();
    else this.drop();
  }

  clear() {
    this.close();
    this.isTyped = false;
    this.onChoose(null);
  }

  async find(text, call = ask) {
    if (!text.trim()) return [];
    return (await call("page/search", { q: text, ...this.middle() })).places;
  }

  async look({ text, round }) {
    if (round !== this.round) return;
    const places = await this.find(text).catch(() => null);
    if (round !== this.round || document.activeElement !== this.input) return;
    if (!places || !text.trim()) { this.close(); return; }
    this.found = places;
    this.text = text;
    this.show();
  }

  show() {
    const rows = this.found.map(({ name, more }, row) => make("li", {
      id: `${this.id}-${row}`, role: "option", "aria-selected": "false", "data-at": row,
    }, name, more ? make("small", {}, more) : null));
    if (!rows.length) rows.push(make("li", { className: "none", role: "status" }, "Nothing has this name or number."));
    this.list.replaceChildren(...rows);
    this.list.hidden = false;
    this.input.setAttribute("aria-expanded", "true");
    this.mark(this.found.length ? 0 : -1);
  }

  mark(row) {
    this.chosen = row;
    [...this.list.children].forEach((each, at) => each.setAttribute("aria-selected", String(at === row)));
    if (row >= 0) {
      this.input.setAttribute("aria-activedescendant", `${this.id}-${row}`);
      this.list.children[row].scrollIntoView({ block: "nearest" });
    } else {
      this.input.removeAttribute("aria-activedescendant");
    }
  }

  choose(row) {
    const { place: word, name, x, y } = this.found[row];
    this.isTyped = false;
    this.close();
    this.input.value = name;
    this.onChoose({ word, name, x, y });
  }

  close() {
    this.next();
    this.found = [];
    this.list.hidden = true;
    this.input.setAttribute("aria-expanded", "false");
    this.input.removeAttribute("aria-activedescendant");
  }
}
