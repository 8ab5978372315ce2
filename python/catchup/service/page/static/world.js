// Places are pixels of the whole world at zoom 20, as the service tells them; Leaflet has latitudes and longitudes.

const { L } = window;
export const ZOOM = 20;
export const WORLD = 256 * 2 ** ZOOM;

export function latLng(x, y) {
  return L.CRS.EPSG3857.pointToLatLng(L.point(x, y), ZOOM);
}

export function worldOf(place) {
  const { x, y } = L.CRS.EPSG3857.latLngToPoint(L.latLng(place), ZOOM);
  return { x: Math.min(Math.max(Math.round(x), 0), WORLD - 1), y: Math.min(Math.max(Math.round(y), 0), WORLD - 1) };
}

// The places of a flat list of x and y, from one point to another.
export function places(flat, from = 0, to = flat.length / 2 - 1) {
  const found = [];
  for (let at = from; at <= to; at++) found.push(latLng(flat[2 * at], flat[2 * at + 1]));
  return found;
}
