// Colours, light and dark.

const SLOW = {
  light: ["#4c9f64", "#9cba3c", "#e9bd2a", "#ee8326", "#d43a2c", "#8e1b46"],
  dark: ["#4c9f64", "#9cba3c", "#e9bd2a", "#ee8326", "#e5483a", "#c65aa6"],
};
const BANDS = {
  light: ["#f6d02f", "#9ccb3b", "#3fae74", "#22898c", "#33638d", "#50327c"],
  dark: ["#f6d02f", "#9ccb3b", "#3fae74", "#22a0a6", "#4a8ad0", "#9a78e0"],
};
export const SLOW_WORDS = ["free", "10 % slower", "30 % slower", "60 % slower", "twice as long", "3 times and more"];

const THEMES = {
  light: {
    road: "#a9b4c0", main: "#8f9cab", faint: "#d6dce2", shut: "#7c1d1d", arrow: "#3c4854", soft: "#566372",
    line: "#d3dae2", route: "#1d62c4", casing: "#ffffff", curve: "#18212b", rush: "#f6dfc4", mark: "#d4145a",
  },
  dark: {
    road: "#55616e", main: "#73818f", faint: "#333c46", shut: "#ff8a80", arrow: "#c9d3dd", soft: "#a3b0be",
    line: "#38434f", route: "#6da7f2", casing: "#0c1116", curve: "#e8edf2", rush: "#4a3920", mark: "#ff5c93",
  },
};

// Calls back after each change of the theme, by the button or by the system.
export function onTheme(call) {
  document.addEventListener("theme", call);
}

export function theme() {
  return document.documentElement.dataset.theme === "dark" ? "dark" : "light";
}

export function colours() {
  return THEMES[theme()];
}

export function toggleTheme() {
  const name = theme() === "dark" ? "light" : "dark";
  document.documentElement.dataset.theme = name;
  try {
    localStorage.setItem("catchup-theme", name);
  } catch (problem) {
    // It holds until the page is closed.
  }
  document.dispatchEvent(new Event("theme"));
}

// Of traffic: from free to slow.
export function slow(level) {
  return SLOW[theme()][level];
}

// Of a route's line: what is free has the line's own colour.
export function along(level) {
  return level === 0 ? colours().route : slow(Math.max(level, 2));
}

// The colour of each of some bands.
export function bandColours(count) {
  const all = BANDS[theme()], step = (all.length - 1) / Math.max(count - 1, 1);
  return Array.from({ length: count }, (_, band) => all[Math.round(band * step)]);
}
