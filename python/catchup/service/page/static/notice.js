// Lines over the map: what is wrong, what was done, and that the service is gone.

import { at, make } from "./dom.js";
import { onReachable } from "./service.js";

const SECONDS = 6;

export class Notice {
  constructor() {
    this.lines = new Map();
    onReachable(isThere => (isThere ? this.back() : this.gone()));
  }

  // Says a line of a kind (good, bad, warn); of one name there is one. It stays for some seconds, or until it is taken.
  say(name, text, kind = "", stays = false) {
    this.take(name);
    const line = make("p", { className: kind }, text);
    at("notice").append(line);
    this.lines.set(name, { line, timer: stays ? 0 : setTimeout(() => this.take(name), SECONDS * 1000) });
  }

  take(name) {
    const found = this.lines.get(name);
    if (!found) return;
    clearTimeout(found.timer);
    found.line.remove();
    this.lines.delete(name);
  }

  problem(problem) {
    if (problem.status === 0) return;
    this.say("problem", problem.hint ? `${problem.message}: ${problem.hint}` : problem.message, "bad");
  }

  gone() {
    this.say("gone", "The service can't be reached. Trying again …", "bad", true);
  }

  back() {
    if (!this.lines.has("gone")) return;
    this.take("gone");
    this.say("back", "The service is back.", "good");
  }
}
