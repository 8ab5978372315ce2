// Days of roads: pieces that are closed or slow for some hours.

import { DAY } from "./clock.js";
import { arrivals } from "./curve.js";

// The pieces of a road that nobody enters, or that takes `factor` times as long, from one second of the day to another;
// over midnight where the other is earlier. Who comes while it is closed waits until it is open; who would be there no
// later for waiting waits too, so nobody who comes later is there sooner.
export function changed(pieces, { factor, from, to }) {
  const day = arrivals(pieces);
  const isInside = second => (from < to ? second >= from && second < to : second >= from || second < to);
  const wanted = day.map((arrive, second) => {
    if (!isInside(second)) return arrive;
    return factor === null ? Infinity : second + Math.round((arrive - second) * factor);
  });
  let least = Infinity;
  for (let second = DAY - 1; second >= 0; second--) least = Math.min(least, wanted[second] + DAY);
  const found = new Float64Array(DAY);
  for (let second = DAY - 1; second >= 0; second--) {
    least = Math.min(least, wanted[second]);
    found[second] = least;
  }
  return piecesOf(found);
}

// Arrivals at each second of the day as pieces.
export function piecesOf(found) {
  const pieces = [];
  for (let at = 0; at < DAY;) {
    const isUntil = at + 1 < DAY && found[at + 1] === found[at], value = isUntil ? found[at] : found[at] - at;
    pieces.push({ from: at, kind: isUntil ? "until" : "travel", value });
    const goesOn = second => (isUntil ? found[second] === value
      : found[second] - second === value && found[second + 1] !== found[second]);
    for (at++; at < DAY && goesOn(at);) at++;
  }
  return pieces;
}

// What a road takes at a second, and in how long nobody may enter it any more; null where it is closed.
export function takes(pieces, second) {
  const piece = pieces.findLast(each => each.from <= second);
  if (piece.kind === "closed") return null;
  return piece.kind === "until" ? piece.value - second : piece.value;
}
