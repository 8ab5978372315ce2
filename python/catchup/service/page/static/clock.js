// Times of day, spans, distances and parts as people write them.

export const DAY = 86400;

const two = number => String(number).padStart(2, "0");

// 08:05, or 08:05:30 where there are seconds; behind midnight with the day.
export function clock(second) {
  const day = Math.floor(second / DAY), rest = second - day * DAY;
  const seconds = rest % 60 ? ":" + two(Math.floor(rest % 60)) : "";
  const time = `${two(Math.floor(rest / 3600))}:${two(Math.floor(rest / 60) % 60)}${seconds}`;
  return time + (day === 1 ? " the next day" : day > 1 ? ` ${day} days later` : day === -1 ? " the day before" : "");
}

// The same to the minute.
export function minute(second) {
  return clock(Math.floor(second / 60) * 60);
}

export function span(seconds) {
  const all = Math.round(seconds), hours = Math.floor(all / 3600), minutes = Math.floor(all / 60) % 60, rest = all % 60;
  const parts = [hours && `${hours} h`, minutes && `${minutes} min`, !hours && rest && `${rest} s`].filter(Boolean);
  return parts.join(" ") || "0 s";
}

// The same with no more than there is room for on an axis.
export function shortSpan(seconds) {
  if (seconds < 600) return span(seconds);
  const minutes = Math.round(seconds / 60), hours = Math.floor(minutes / 60);
  return hours ? `${hours} h ${String(minutes % 60).padStart(2, "0")}` : `${minutes} min`;
}

export function distance(metres) {
  if (metres < 995) return `${Math.round(metres / 10) * 10 || Math.round(metres)} m`;
  return `${(metres / 1000).toFixed(metres < 9950 ? 1 : 0)} km`;
}

// So many of all in whole percents: 100 where it is all, and 0 where it is nothing, but for no other part.
export function percent(count, all) {
  const found = Math.round(100 * count / Math.max(all, 1));
  return `${count === all || !count ? found : Math.min(Math.max(found, 1), 99)} %`;
}

// The second of the day that somebody types, as 8, 8:05, 805, 0805, 08:05:30 or 8.05; null where it is none.
export function readTime(text) {
  const words = text.trim().replace(/\s*h$/i, "").split(/[:.h\s]+/i).filter(Boolean);
  if (!words.length || !words.every(word => /^\d{1,4}$/.test(word))) return null;
  if (words.length === 1 && words[0].length > 2) words.splice(0, 1, words[0].slice(0, -2), words[0].slice(-2));
  const [hours, minutes = 0, seconds = 0] = words.map(Number);
  if (words.length > 3 || hours > 24 || minutes > 59 || seconds > 59) return null;
  const second = hours * 3600 + minutes * 60 + seconds;
  return second === DAY ? 0 : second > DAY ? null : second;
}
