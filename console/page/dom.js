// Small helpers of all pages: elements, numbers, times, chips of states.

/** An element: `h("td", {class: "value"}, "12.4 C")`. Attributes that begin with `on` are listeners. */
export function h(tag, attributes = {}, ...children) {
  const element = document.createElement(tag);
  for (const [name, value] of Object.entries(attributes)) {
    if (name.startsWith("on")) element.addEventListener(name.slice(2), value);
    else if (name === "style") element.style.cssText = value;
    else if (value === true) element.setAttribute(name, "");
    else if (value !== false && value != null) element.setAttribute(name, value);
  }
  element.append(...children.flat().filter((child) => child != null && child !== false));
  return element;
}

/** Sets a text where it differs. */
export function put(element, text) {
  const said = String(text ?? "");
  if (element.textContent !== said) element.textContent = said;
}

/** A table with these heads, and its body. */
export function table(heads, kind = "") {
  const body = h("tbody");
  const row = h("tr", {}, heads.map((head) => h("th", typeof head === "string" ? { scope: "col" } : { scope: "col", class: head[1] }, typeof head === "string" ? head : head[0])));
  return [h("table", { class: kind }, h("thead", {}, row), body), body];
}

const LETTERS = {
  GREEN: "G", GREEN_LOW: "GL", GREEN_HIGH: "GH", BLUE: "B", YELLOW: "Y", YELLOW_LOW: "YL", YELLOW_HIGH: "YH", RED: "R", RED_LOW: "RL", RED_HIGH: "RH", STALE: "–",
};

/** The class of a limits state. */
export const hue = (state) => (state ?? "").split("_")[0].toLowerCase();

/** A limits state in its colour, with its letters. */
export function chip(state) {
  return state ? h("span", { class: `chip ${hue(state)}` }, h("b", { "aria-hidden": "true" }, LETTERS[state] ?? "?"), state.replace("_", " ").toLowerCase()) : "";
}

/** Puts a chip into an element where its state differs. */
export function putChip(element, state) {
  if (element.dataset.state === String(state)) return;
  element.dataset.state = state;
  element.replaceChildren(chip(state));
}

export const whole = (number) => Number(number).toLocaleString("en-US").replaceAll(",", "\u202f");

/** So many bytes as people read them. */
export function bytes(number) {
  const units = ["B", "kB", "MB", "GB"];
  let at = 0;
  while (number >= 1000 && at < 3) [number, at] = [number / 1000, at + 1];
  return `${at ? number.toFixed(1) : Math.round(number)} ${units[at]}`;
}

/** A time that passes, in its two greatest units. */
export function span(seconds) {
  if (seconds < 1) return "now";
  if (seconds < 60) return `${Math.floor(seconds)} s`;
  const parts = [["d", 86400], ["h", 3600], ["min", 60], ["s", 1]];
  const at = parts.findIndex(([, size]) => seconds >= size);
  return parts.slice(at, at + 2).map(([unit, size], place) => `${Math.floor((place ? seconds % parts[at][1] : seconds) / size)} ${unit}`).join(" ");
}

export const clock = (seconds) => new Date(seconds * 1000).toLocaleTimeString("en-GB");

const lit = new Map();

/** Lights an element up, since its value changed. It goes out when the value stood for a while. */
export function light(element) {
  if (!lit.has(element)) element.classList.add("lit");
  lit.set(element, performance.now());
}

setInterval(() => {
  const old = performance.now() - 900;
  for (const [element, since] of lit) {
    if (since > old) continue;
    element.classList.remove("lit");
    lit.delete(element);
  }
}, 300);

/** An event of limits, as a row of a list. */
export function eventRow([entry, target, packet, item, before, after, time]) {
  return h("li", {}, h("time", {}, time ? clock(time) : `#${entry}`), h("a", { class: "grow", href: `#packets/${target}/${packet}/${item}` }, `${target} ${packet} ${item}`), chip(before), "→", chip(after));
}
