// The travel time over the day, from the pieces of one drive or of several behind one another.

import { DAY } from "./clock.js";

// The arrival at each second of the day.
export function arrivals(pieces) {
  const found = new Float64Array(DAY);
  pieces.forEach((piece, index) => {
    const end = index + 1 < pieces.length ? pieces[index + 1].from : DAY;
    const isUntil = piece.kind === "until";
    for (let second = piece.from; second < end; second++) found[second] = isUntil ? piece.value : second + piece.value;
  });
  return found;
}

// When one arrives by the second drive who leaves for the first at each second.
export function behind(first, second) {
  return first.map(arrive => second[arrive % DAY] + Math.floor(arrive / DAY) * DAY);
}

// The first second of the day from which on one arrives by some drives at a second or later.
function departureFor(arrives, second) {
  let low = 0, high = DAY;
  while (low < high) {
    const middle = (low + high) >> 1;
    if (arrives[middle] >= second) high = middle; else low = middle + 1;
  }
  return low;
}

// The curve of the days of a drive's legs: its travel times, the least and the greatest, rush hours, and where another
// route takes over.
export function curveOf(days) {
  let so = null;
  const changes = new Set();
  for (const day of days) {
    for (const route of day.routes ?? []) {
      const from = so ? departureFor(so, route.from) : route.from;
      if (from > 0 && from < DAY) changes.add(from);
    }
    const own = arrivals(day.pieces);
    so = so ? behind(so, own) : own;
  }
  const travels = so.map((arrive, second) => arrive - second);
  let least = 0, most = 0;
  for (let second = 1; second < DAY; second++) {
    if (travels[second] < travels[least]) least = second;
    if (travels[second] > travels[most]) most = second;
  }
  const rush = rushOf(travels, travels[least], travels[most]);
  return { travels, least, most, changes: [...changes].sort((a, b) => a - b), rush };
}

// Stretches of more than half of the way from the least to the greatest travel time, where that is a tenth more than
// the least. Breaks of some minutes are passed over.
function rushOf(travels, least, most) {
  const limit = (least + most) / 2, found = [];
  if (most <= least * 1.1) return found;
  for (let second = 0; second < DAY; second++) {
    if (travels[second] <= limit) continue;
    const last = found.at(-1);
    if (last && second - last[1] < 600) last[1] = second; else found.push([second, second]);
  }
  return found.filter(([from, to]) => to - from >= 300);
}
