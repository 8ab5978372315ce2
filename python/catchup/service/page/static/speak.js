// What a screen reader says of what is only seen on the map.

import { at } from "./dom.js";

const PAUSE = 80;               // milliseconds after which a reader takes the same text for another one
let pending = null;

export function speak(text) {
  at("spoken").textContent = "";
  clearTimeout(pending);
  pending = setTimeout(() => { at("spoken").textContent = text; }, PAUSE);
}
