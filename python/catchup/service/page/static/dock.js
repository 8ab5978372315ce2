// The time of day: typed, by the slider, or now.

import { clock, minute, readTime } from "./clock.js";
import { at } from "./dom.js";
import { ask } from "./service.js";
import { change, onChange, state } from "./state.js";

export class Dock {
  constructor() {
    at("by").onchange = event => change({ by: event.target.value });
    at("slider").oninput = event => change({ time: Number(event.target.value) });
    at("time").onchange = () => this.typed();
    at("time").onkeydown = event => { if (event.key === "Enter") this.typed(); };
    at("time").onfocus = event => event.target.select();
    at("now").onclick = async () => {
      // The roads' own time: the service knows its zone.
      const { now } = await ask("page/setting").catch(() => ({ now: null }));
      if (now !== null) change({ time: Math.floor(now / 60) * 60 });
    };
    onChange(names => {
      if (["time", "by", "mode"].some(name => names.includes(name))) this.show();
    });
    this.show();
  }

  typed() {
    const second = readTime(at("time").value);
    this.mark(second === null);
    if (second !== null) change({ time: second });
  }

  mark(isWrong) {
    at("time").setAttribute("aria-invalid", String(isWrong));
    at("time-wrong").textContent = isWrong ? "There is no such time: write it as 08:30." : "";
  }

  show() {
    const isRoute = state.mode === "route";
    at("by").hidden = !isRoute;
    at("at").hidden = isRoute;
    at("by").value = state.by;
    if (document.activeElement !== at("time") || readTime(at("time").value) !== null) {
      at("time").value = clock(state.time);
      this.mark(false);
    }
    at("slider").value = state.time;
    at("slider").setAttribute("aria-valuetext", minute(state.time));
  }

  // What the route says beside the time.
  say(found) {
    const said = found && (state.by === "depart" ? `→ ${clock(found.arrive)}` : `leave at ${clock(found.depart)}`);
    at("said").textContent = said ?? "";
  }
}

