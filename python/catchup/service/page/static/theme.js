// Before anything is painted, and whenever the system's changes: the theme that was chosen, or that of the system.
// Colours that the system forces go with its own.
{
  const isDarkSystem = matchMedia("(prefers-color-scheme: dark)"), isForced = matchMedia("(forced-colors: active)");
  const apply = () => {
    let chosen = null;
    try {
      chosen = localStorage.getItem("catchup-theme");
    } catch (problem) {
      // A browser that keeps nothing has the system's.
    }
    const isDark = chosen && !isForced.matches ? chosen === "dark" : isDarkSystem.matches;
    document.documentElement.dataset.theme = isDark ? "dark" : "light";
    document.dispatchEvent(new Event("theme"));
  };
  apply();
  for (const query of [isDarkSystem, isForced]) query.addEventListener("change", apply);
}
