// Elements of the page.

export const at = id => document.getElementById(id);

// An element with its properties and what it holds; names with a dash are attributes.
export function make(name, what = {}, ...inside) {
  const element = document.createElement(name);
  for (const [key, value] of Object.entries(what)) {
    if (value === null || value === undefined) continue;
    if (key.includes("-") || key === "role" || key === "for") element.setAttribute(key, value);
    else if (key === "style") Object.assign(element.style, value);
    else element[key] = value;
  }
  element.append(...inside.flat().filter(each => each !== null && each !== undefined && each !== false));
  return element;
}

export function fill(element, ...inside) {
  element.replaceChildren(...inside.flat().filter(each => each !== null && each !== undefined && each !== false));
}

// A legend: pairs of a colour and what it says; `dashed` is for roads that are closed.
export function legend(element, rows) {
  fill(element, rows.map(([colour, text, kind]) => make("span", {}, make("i", {
    className: kind ?? "", style: kind ? { borderTopColor: colour } : { background: colour } }), text)));
}

// Whether a button was pressed by a key: a click that no mouse has counted.
export const isByKeys = click => click.detail === 0;

// What is wrong, with what to do.
export function wrong(problem) {
  const hint = problem.hint ? make("small", {}, problem.hint) : null;
  return make("div", { className: "bad-box", role: "alert" }, problem.message, hint);
}
