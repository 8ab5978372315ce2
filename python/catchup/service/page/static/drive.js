// A drive as the service tells it, in the parts that the page shows: stretches by how slow they are, streets by name.

const SMOOTH = 20;              // free seconds of the shortest stretch: two seconds for one aren't slow
const LIMITS = [1.1, 1.3, 1.6, 2, 3];
const SLACK = 3;
const LEAST_WAIT = 20;          // seconds of a wait that is told

// What each road of a leg takes, in seconds.
function takes(leg) {
  return leg.roads.map((_, i) => (leg.seconds[i + 1] ?? leg.arrive) - leg.seconds[i]);
}

export function levelOf(taken, free) {
  const ratio = (taken + SLACK) / (free + SLACK), level = LIMITS.findIndex(limit => ratio <= limit);
  return level < 0 ? LIMITS.length : level;
}

// Stretches of a leg's line that are about as slow: { level, from, to }, which are points of the line.
export function stretches(leg) {
  const taken = takes(leg), found = [];
  let from = 0, free = 0, all = 0;
  leg.roads.forEach((_, i) => {
    free += leg.free[i];
    all += taken[i];
    if (free < SMOOTH && i < leg.roads.length - 1) return;
    const level = levelOf(all, free), last = found.at(-1);
    if (last?.level === level) last.to = leg.points[i + 1];
    else found.push({ level, from: leg.points[from], to: leg.points[i + 1] });
    [from, free, all] = [i + 1, 0, 0];
  });
  return found;
}

// The streets of a leg in their order: { name, entered, metres, waits, level, from, to }; a wait is { at, until }.
export function streets(leg) {
  const taken = takes(leg), found = [];
  leg.roads.forEach((_, i) => {
    const name = leg.names[i] || "Unnamed road";
    let last = found.at(-1);
    if (last?.name !== name) {
      last = { name, entered: leg.seconds[i], metres: 0, waits: [], free: 0, taken: 0, from: leg.points[i], to: 0 };
      found.push(last);
    }
    last.metres += leg.metres[i] ?? 0;
    last.free += leg.free[i];
    last.taken += taken[i];
    last.to = leg.points[i + 1];
    const wait = leg.waits[i], entered = leg.seconds[i];
    if (wait >= LEAST_WAIT) last.waits.push({ at: entered, until: entered + wait, road: i });
  });
  return found.map(street => ({ ...street, level: levelOf(street.taken, street.free) }));
}

function sumOf(numbers) {
  return numbers.reduce((one, other) => one + other, 0);
}

export function metresOf(found) {
  return sumOf(found.legs.flatMap(leg => leg.metres));
}

export function waitOf(found) {
  return sumOf(found.legs.flatMap(leg => leg.waits).filter(wait => wait >= LEAST_WAIT));
}
