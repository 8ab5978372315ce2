// The map: Leaflet with a base map where there is one, our roads, and what is clicked and pointed at.

import { onTheme } from "./palette.js";
import { Roads } from "./roads.js";
import { onReachable } from "./service.js";
import { setView, state } from "./state.js";
import { latLng, worldOf, ZOOM } from "./world.js";

const { L } = window;
const OSM = '&copy; <a href="https://www.openstreetmap.org/copyright">OpenStreetMap contributors</a>';
const POINTED = 9;              // pixels within which a street is pointed at
const PAPER = 660;              // pixels of CSS that have room beside one another on common paper

// How the map moves: for whoever wants little motion it is at once where it is to be.
function moving() {
  if (!matchMedia("(prefers-reduced-motion: reduce)").matches) return {};
  const panBy = L.Map.prototype.panBy;
  L.Map.include({
    panBy(offset, options) { return panBy.call(this, offset, { ...options, animate: false }); },
  });
  return { zoomAnimation: false, fadeAnimation: false, markerZoomAnimation: false, inertia: false };
}

export class Chart {
  constructor(element, setting) {
    const { map: found } = setting;
    this.found = found;
    const [west, north, east, south] = found.box;
    this.bounds = L.latLngBounds(latLng(west, south), latLng(east, north));
    this.map = L.map(element, {
      zoomControl: false, attributionControl: false, preferCanvas: true, renderer: L.canvas({ padding: 0.3 }),
      zoomSnap: 0.5, wheelPxPerZoomLevel: 90, minZoom: 1, maxZoom: ZOOM, maxBoundsViscosity: 0.6, ...moving(),
    });
    this.addControls(setting);
    this.map.setMaxBounds(this.bounds.pad(1.5));
    this.show(state.view);
    const deepest = Math.ceil(Math.log2(900 / Math.max(found.mean, 1)) + ZOOM);
    this.map.setMaxZoom(Math.min(Math.max(deepest, found.is_plane ? 3 : 18), ZOOM));
    this.map.setMinZoom(Math.max(Math.floor(this.map.getBoundsZoom(this.bounds)) - 2, 1));
    if (setting.tiles) {
      const attribution = setting.attribution ?? OSM;
      L.tileLayer(setting.tiles, { className: "base", maxZoom: ZOOM, maxNativeZoom: 19, attribution }).addTo(this.map);
    }
    // The roads lie under what is drawn over them.
    this.map.createPane("roads").style.zIndex = 350;
    this.map.createPane("ground").style.zIndex = 340;
    this.roads = new Roads(found, { pane: "roads", minZoom: 0, maxZoom: ZOOM }).addTo(this.map);
    this.listen();
  }

  addControls(setting) {
    L.control.zoom({ position: "topleft", zoomInTitle: "Closer", zoomOutTitle: "Wider" }).addTo(this.map);
    const whole = L.control({ position: "topleft" });
    whole.onAdd = () => {
      const bar = L.DomUtil.create("div", "leaflet-bar"), button = L.DomUtil.create("a", "whole", bar);
      Object.assign(button, { href: "#", title: "The whole network", textContent: "▣", role: "button" });
      button.setAttribute("aria-label", "The whole network");
      L.DomEvent.disableClickPropagation(bar).on(button, "click", event => {
        L.DomEvent.preventDefault(event);
        this.fit();
      });
      return bar;
    };
    whole.addTo(this.map);
    const attribution = L.control.attribution({ position: "bottomright", prefix: false });
    if (!setting.map.is_plane) attribution.addAttribution(`Roads ${OSM}`);
    attribution.addAttribution('<a href="https://leafletjs.com">Leaflet</a>');
    attribution.addTo(this.map);
    if (!setting.map.is_plane) L.control.scale({ position: "bottomleft", imperial: false }).addTo(this.map);
    // Leaflet's buttons are links, which the space bar doesn't press.
    this.map.getContainer().addEventListener("keydown", event => {
      if (event.key !== " " || !event.target.matches("a[role=button]")) return;
      event.preventDefault();
      event.target.click();
    });
  }

  // Shows the whole network, or some bounds; until somebody moves the map, it shows them whatever its size becomes.
  fit(options = {}, bounds = this.bounds) {
    this.fitted = bounds;
    if (this.map._animatingZoom) {
      // Leaflet passes over what comes while it zooms.
      this.map.once("zoomend", () => { if (this.fitted === bounds) this.fit(options, bounds); });
      return;
    }
    this.isFitting = true;
    // One that zooms slowly begins that in a later frame.
    this.map.once("moveend", () => { this.isFitting = false; });
    this.map.fitBounds(bounds, { padding: [22, 22], maxZoom: 17, ...options });
  }

  // The view of an address, as 12/47.1/9.5; the whole network where there is none.
  show(view) {
    const [zoom, lat, lon] = (view ?? "").split("/").map(Number);
    const isView = view && [zoom, lat, lon].every(Number.isFinite) && this.bounds.pad(2).contains([lat, lon]);
    if (isView) this.map.setView([lat, lon], zoom, { animate: false });
    else this.fit({ animate: false });
    this.keep();
  }

  // Notes what is shown, so that another size of the map shows it too.
  keep() {
    this.kept = { center: this.map.getCenter(), zoom: this.map.getZoom() };
  }

  viewNow() {
    const { lat, lng } = this.map.getCenter();
    return `${+this.map.getZoom().toFixed(2)}/${lat.toFixed(5)}/${lng.toFixed(5)}`;
  }

  listen() {
    this.map.on("moveend", () => {
      if (this.isResizing) return;
      this.keep();
      setView(this.viewNow());
    });
    // Whoever moves the map keeps the view.
    this.map.on("dragstart", () => { this.fitted = null; });
    this.map.getContainer().addEventListener("wheel", () => { this.fitted = null; }, { passive: true });
    this.map.on("zoomstart", () => { if (!this.isFitting) this.fitted = null; });
    this.map.on("click contextmenu", event => this.onClick?.(event.latlng, event));
    // A finger points at nothing: browsers tell a mouse in its place, which would stay there.
    const pointed = event => { if (!this.isTouched) this.point(event.latlng, event.containerPoint); };
    const look = ({ pointerType }) => { this.isTouched = pointerType === "touch"; };
    for (const kind of ["pointerdown", "pointermove"]) this.map.getContainer().addEventListener(kind, look, true);
    this.map.on("mousemove", pointed).on("mouseout movestart zoomstart", () => this.point(null));
    onTheme(() => this.roads.restyle());
    // What didn't come while the service was gone.
    onReachable(isThere => { if (isThere) this.roads.redraw(); });
    new ResizeObserver(() => this.resize()).observe(this.map.getContainer());
  }

  // On paper the map is as large as on the screen, so that it shows the same, and is drawn smaller by the style.
  print() {
    const { x, y } = this.map.getSize(), { style } = document.documentElement;
    style.setProperty("--paper-wide", `${x}px`);
    style.setProperty("--paper-high", `${y}px`);
    style.setProperty("--paper-scale", Math.min(1, PAPER / x));
  }

  // Another size shows the same: what was fitted, or the same middle.
  resize() {
    this.isResizing = true;
    this.map.invalidateSize({ pan: false });
    if (this.kept) this.map.setView(this.kept.center, this.kept.zoom, { animate: false });
    this.isResizing = false;
    if (this.fitted) this.fit({ animate: false }, this.fitted);
  }

  // The street at a place of the map; -1 where there is none.
  streetAt(place, pixels = POINTED) {
    const { x, y } = worldOf(place), zoom = this.map.getZoom();
    return this.roads.data.street(x, y, Math.round(zoom), pixels * 2 ** (ZOOM - zoom));
  }

  // Tells the street under the pointer, once the pointer rests.
  point(place, at) {
    clearTimeout(this.pointing);
    this.onPoint?.(-1, null);
    if (!place || this.map._animatingZoom) return;
    this.pointing = setTimeout(() => {
      const street = this.streetAt(place);
      if (street >= 0) this.onPoint?.(street, at);
    }, 90);
  }
}
