// Begins: asks the service what there is, and shows it, or why there is nothing.

import { at, fill, make } from "./dom.js";
import { Notice } from "./notice.js";
import { toggleTheme } from "./palette.js";
import { ask, setProfile } from "./service.js";
import { begin, change, MODES, state } from "./state.js";

const AGAIN = 2000;
const IS_NARROW = matchMedia("(max-width: 719px)");

function listen() {
  for (const mode of MODES) at(`tab-${mode}`).onclick = () => change({ mode });
  at("tabs").onkeydown = event => {
    const step = { ArrowRight: 1, ArrowLeft: MODES.length - 1 }[event.key];
    if (!step) return;
    const mode = MODES[(MODES.indexOf(state.mode) + step) % MODES.length];
    change({ mode });
    at(`tab-${mode}`).focus();
  };
  // The page's address keeps what is shown, so it can't name a part of the page.
  document.querySelector(".skip").onclick = event => {
    event.preventDefault();
    at(IS_NARROW.matches ? "panel" : "map").focus();
  };
  IS_NARROW.onchange = order;
  at("theme").onclick = toggleTheme;
  at("profile").onchange = event => change({ profile: event.target.value });
}

// The key of tabulation goes as the screen does: the panel stands before the map, and below it where that is narrow.
function order() {
  const skip = document.querySelector(".skip"), panel = at("panel"), focused = document.activeElement;
  if (IS_NARROW.matches) document.body.append(panel);
  else skip.after(panel);
  skip.textContent = IS_NARROW.matches ? "Skip the map" : "Skip to the map";
  if (panel.contains(focused)) focused.focus({ preventScroll: true });
}

function empty(title, ...lines) {
  document.body.dataset.state = "empty";
  fill(at("empty"), make("h2", {}, title), lines.map(line => make("p", {}, line)));
  at("empty").hidden = false;
}

function showProfiles(setting) {
  at("profile").hidden = setting.profiles.length < 2;
  fill(at("profile"), setting.profiles.map(name => make("option", { value: name }, name)));
  at("profile").value = state.profile ?? setting.profiles[0];
}

async function start(notice) {
  empty("Loading …");
  let setting;
  try {
    setting = await ask("page/setting");
  } catch (problem) {
    if (problem.status) empty("The service has no answer", `${problem.message} ${problem.hint}`);
    else empty("The service can't be reached", "Trying again …");
    setTimeout(() => start(notice), AGAIN);
    return;
  }
  showProfiles(setting);
  if (!window.L) {
    empty("The map is missing", "Leaflet isn't installed beside the service:",
      make("code", {}, "apt-get install libjs-leaflet"));
  } else if (!setting.map) {
    empty("There is no map",
      "The service knows no places of this network. Start it with the folder of its tables, or of the map's import:",
      make("code", {}, "catchup-http --tables DIR FILE"));
  } else if (!setting.map.roads) {
    empty("The network has no roads", "There is nothing to drive on yet.");
  } else {
    // What needs Leaflet is loaded where that is there.
    const { Page } = await import("./app.js");
    at("empty").hidden = true;
    document.body.dataset.state = "";
    window.catchup = Object.assign(new Page(setting, notice), { state, change });
  }
}

begin(8 * 3600);
setProfile(state.profile);
listen();
order();
start(new Notice());
