// What the service is asked.

// An answer that isn't one: what is wrong, and where it helps what to do. Of status 0 where there was no answer.
export class Problem extends Error {
  constructor(status, text, hint, more = {}) {
    super(text);
    this.status = status;
    this.hint = hint ?? "";
    this.more = more;
  }
}

let isGone = false;
const watchers = new Set();

// Calls back whenever the service is gone, or is there again.
export function onReachable(call) {
  watchers.add(call);
}

export function setReachable(isThere) {
  if (isGone === !isThere) return;
  isGone = !isThere;
  for (const call of watchers) call(isThere);
}

export function isReachable() {
  return !isGone;
}

// Waits until a service that is gone is there again.
function untilReachable() {
  return new Promise(resolve => {
    const look = isThere => {
      if (!isThere) return;
      watchers.delete(look);
      resolve();
    };
    watchers.add(look);
  });
}

let profile = null;

export function setProfile(name) {
  profile = name;
}

// An address is of the page's own folder, since a proxy may have it below a path of its own.
export function address(path, words = {}) {
  const all = Object.entries({ ...words, profile }).filter(([, value]) => (value ?? "") !== "");
  return path + (all.length ? "?" + new URLSearchParams(all) : "");
}

// The version that the service told last. Its workers follow one another within a second, so an answer may be of the
// one before: it is asked for again.
const OF_VERSION = /^(day|page\/(traffic|route|reach|ground|street|profile))$/;
const TRIES = 8, PAUSE = 250;
let version = null;

export function setVersion(name) {
  version = name;
}

async function fetchLast(path, words, options) {
  for (let left = TRIES; ; left--) {
    const found = await fetch(address(path, words), options);
    const isLast = !version || !OF_VERSION.test(path) || found.headers.get("catchup-version") === version;
    if (isLast || !found.ok || !left) return found;
    await new Promise(resolve => { setTimeout(resolve, PAUSE); });
  }
}

async function reply(path, words, options) {
  let found;
  try {
    found = await fetchLast(path, words, options);
  } catch (problem) {
    if (problem.name === "AbortError") throw problem;
    setReachable(false);
    throw new Problem(0, "The service can't be reached.", "");
  }
  setReachable(true);
  if (found.ok) return found;
  const told = await found.json().catch(() => ({}));
  throw new Problem(found.status, told.error ?? `The service answered ${found.status}.`, told.hint, told);
}

export async function ask(path, words, options) {
  return (await reply(path, words, options)).json();
}

// The same, once there is an answer: what is asked while the service is gone is asked again as soon as it is back.
export async function askUntil(path, words) {
  for (;;) {
    try {
      return await ask(path, words);
    } catch (problem) {
      if (problem.status !== 0) throw problem;
      if (isGone) await untilReachable();
    }
  }
}

export async function bytes(path, words, options) {
  const found = await reply(path, words, options);
  return { data: new Uint8Array(await found.arrayBuffer()), version: found.headers.get("catchup-version") };
}

// Asks one question at a time: of those that come meanwhile the last one alone is asked. The call learns by a function
// whether its question is still the last one.
export function newest(call) {
  let busy = false, wanted = null;
  return async question => {
    wanted = { question };
    if (busy) return;
    busy = true;
    while (wanted) {
      const now = wanted.question;
      wanted = null;
      try {
        await call(now, () => wanted === null);
      } catch (problem) {
        console.warn(problem.message);
      }
    }
    busy = false;
  };
}

export async function edit(edits, token) {
  const headers = { "Content-Type": "application/json", ...(token ? { Authorization: `Bearer ${token}` } : {}) };
  return ask("edits", {}, { method: "POST", headers, body: JSON.stringify({ edits }) });
}
