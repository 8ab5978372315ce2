// A small menu over the map, of what to do with a place of it. Opened by keys it takes the focus and is led through by
// them; whoever leaves it comes back to the map.

import { make } from "./dom.js";

const { L } = window;
const STEPS = { ArrowDown: 1, ArrowRight: 1, ArrowUp: -1, ArrowLeft: -1 };

// `choices` are pairs of a text and what it calls.
export function openMenu(map, spot, choices, isByKeys) {
  const popup = L.popup({ closeButton: true, minWidth: 150 }).setLatLng(spot);
  const rows = choices.map(([text, call]) => make("button", {
    role: "menuitem", onclick: () => { popup.remove(); call(); } }, text));
  popup.setContent(make("div", { className: "buttons", role: "menu", "aria-label": "This place" }, rows));
  popup.openOn(map);
  const element = popup.getElement(), close = element.querySelector(".leaflet-popup-close-button");
  for (const [name, value] of [["role", "button"], ["aria-label", "Close"]]) close.setAttribute(name, value);
  element.addEventListener("keydown", event => lead(event, popup, rows));
  popup.on("remove", () => {
    if (element.contains(document.activeElement)) map.getContainer().focus({ preventScroll: true });
  });
  if (isByKeys) rows[0].focus({ preventScroll: true });
}

function lead(event, popup, rows) {
  const at = rows.indexOf(document.activeElement), last = rows.length - 1, step = STEPS[event.key];
  if (event.key === "Escape") popup.remove();
  else if (event.key === "Home" || step && at + step > last) rows[0].focus();
  else if (event.key === "End" || step && at + step < 0) rows[last].focus();
  else if (step) rows[at + step].focus();
  else return;
  event.preventDefault();
  event.stopPropagation();
}
