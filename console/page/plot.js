// Plot: up to eight items against time, live. Items are heard for as long as they are plotted, also while another page is shown.
import { clock, h, put } from "./dom.js";
import { draw, HUES } from "./chart.js";

const MOST = 8, KEPT = 36000;
const lines = new Map();
let app = null;

/** Says once where the forms and topics are. */
export function usePlot(application) {
  app = application;
}

export const plotted = (name) => lines.has(name);
export const plotTopics = () => [...new Set([...lines.values()].map((line) => line.topic))];

/** The form of an item by its three names, and its place in its packet. */
function find(name) {
  const [target, packet, item] = name.split(" ");
  const form = app.forms.telemetry.find((one) => one.target === target && one.name === packet);
  const at = form ? form.items.findIndex((one) => one.name === item) : -1;
  return at < 0 ? null : { form: form.items[at], at, topic: `packet ${target} ${packet}` };
}

/** Adds an item, where there is room; false where not. */
export function plots(name) {
  const found = find(name);
  if (lines.has(name) || !found || lines.size >= MOST) return lines.has(name);
  const used = new Set([...lines.values()].map((line) => line.hue));
  lines.set(name, { name, topic: found.topic, at: found.at, form: found.form, hue: [...HUES.keys()].find((hue) => !used.has(hue)), points: [], count: null, limits: null });
  app.look();
  return true;
}

/** Takes the values of packets, and the limits of items. */
export function plotTake(topic, data) {
  if (topic === "limits") for (const { item, limits } of data.rows) if (lines.has(item)) lines.get(item).limits = limits;
  for (const line of lines.values()) {
    if (line.topic !== topic || !data.rows.length || data.count === line.count) continue;
    const [raw, converted] = data.rows[line.at], value = Number(line.form.number ? converted : raw);
    if (line.count !== null && data.count < line.count) line.points.push([data.seen ?? Date.now() / 1000, NaN, ""]);
    line.count = data.count;
    line.points.push([data.seen ?? Date.now() / 1000, value, data.rows[line.at][2]]);
    if (line.points.length > KEPT) line.points.splice(0, 1000);
  }
}

/** All points as a text of columns: the time, then each item; a column is empty where its packet did not come then. */
function columns() {
  const names = [...lines.keys()], times = new Map();
  names.forEach((name, at) => {
    for (const [time, value] of lines.get(name).points) {
      if (!Number.isFinite(value)) continue;
      if (!times.has(time)) times.set(time, names.map(() => ""));
      times.get(time)[at] = value;
    }
  });
  const rows = [...times].sort(([a], [b]) => a - b).map(([time, values]) => [new Date(time * 1000).toISOString(), ...values].join("\t"));
  return [["time", ...names].join("\t"), ...rows, ""].join("\n");
}

function download() {
  const link = h("a", { href: URL.createObjectURL(new Blob([columns()], { type: "text/tab-separated-values" })), download: `plot-${new Date().toISOString().slice(0, 19).replaceAll(":", "")}.tsv` });
  link.click();
  setTimeout(() => URL.revokeObjectURL(link.href), 10000);
}

/** What the plot shows of time: so many seconds, up to now or to a moment where it is paused. */
class Frame {
  span = 60;
  end = null;
  pointer = null;
  get to() {
    return this.end ?? Date.now() / 1000;
  }
  get from() {
    return this.to - this.span;
  }
  pause(is = this.end === null) {
    this.end = is ? Date.now() / 1000 : null;
  }
  zoom(factor, share = 1) {
    const at = this.from + share * this.span;
    this.span = Math.min(86400, Math.max(0.5, this.span * factor));
    if (this.end !== null) this.end = at + (1 - share) * this.span;
  }
  choose(from, to) {
    if (to - from < 0.2) return;
    [this.span, this.end] = [to - from, to];
  }
}

function adder(changed) {
  const names = app.forms.telemetry.flatMap((packet) => packet.items.filter((item) => item.kind === "UINT" || item.kind === "INT").map((item) => `${packet.target} ${packet.name} ${item.name}`));
  const options = h("datalist", { id: "items" }, names.slice(0, 5000).map((name) => h("option", { value: name })));
  const input = h("input", { class: "search", list: "items", placeholder: "Add an item: target, packet, item  ( / )", "aria-label": "Add an item to the plot", spellcheck: "false" });
  const said = h("span", { class: "small soft", role: "status" });
  function add(event) {
    event.preventDefault();
    const words = input.value.toUpperCase().split(/\s+/).filter(Boolean);
    const name = names.find((one) => one === words.join(" ")) ?? names.find((one) => words.length && words.every((word) => one.includes(word)));
    put(said, !name ? "no number has such a name" : plots(name) ? "" : `${MOST} items are the most`);
    if (name) input.value = "";
    changed();
  }
  input.addEventListener("input", () => names.includes(input.value) && add(new Event("submit")));
  return h("form", { onsubmit: add, class: "tools" }, h("span", { class: "grow" }, input), h("button", {}, "Add"), said, options);
}

/** The list of lines, with the values under the pointer. */
function legend(changed) {
  const element = h("div", { class: "legend" }), cells = new Map();
  function fill() {
    cells.clear();
    element.replaceChildren(...[...lines.values()].map((line) => {
      const value = h("b", { class: "mono" }), limits = h("span", { class: "small soft" });
      cells.set(line.name, [value, limits]);
      return h("div", {}, h("span", { class: "swatch", style: `background:${HUES[line.hue]}` }), h("a", { href: `#packets/${line.name.replaceAll(" ", "/")}` }, line.name), value, limits, h("span", { class: "space" }),
        h("button", { class: "plain tiny", "aria-label": `remove ${line.name}`, onclick: () => { lines.delete(line.name); app.look(); changed(); } }, "remove"));
    }));
  }
  function show(time) {
    for (const [name, [value, limits]] of cells) {
      const line = lines.get(name), points = line.points;
      const at = time == null ? points.at(-1) : points.findLast(([when]) => when <= time);
      put(value, at ? `${at[2]} ${line.form.units}` : "–");
      put(limits, line.limits ? `limits ${line.limits.slice(3).filter((one) => one != null).join(" ")}` : "");
    }
  }
  return { element, fill, show };
}

export function plot() {
  const frame = new Frame(), canvas = h("canvas", { tabindex: "0", role: "img", "aria-label": "plot of the items below against time" });
  const ranges = h("input", { type: "checkbox", checked: true }), own = h("input", { type: "checkbox", onchange: () => (isChosen = true) });
  const state = h("span", { class: "small soft" });
  const pause = h("button", { class: "plain", id: "pause", onclick: () => frame.pause() }), list = legend(() => changed());
  const button = (text, title, act) => h("button", { class: "plain", title, "aria-label": title, onclick: act }, text);
  const tools = h("div", { class: "tools" }, pause, button("+", "zoom in", () => frame.zoom(0.5)), button("−", "zoom out", () => frame.zoom(2)),
    button("1 min", "the last minute, live", () => Object.assign(frame, { span: 60, end: null })),
    button("10 min", "the last ten minutes, live", () => Object.assign(frame, { span: 600, end: null })),
    h("label", { class: "small" }, ranges, " limits in view"), h("label", { class: "small" }, own, " a scale of its own each"),
    h("span", { class: "space" }), state, button("Download", "download as text of columns", download));
  const empty = h("p", { class: "empty" }, "Nothing is plotted yet. Add an item by a part of its name, as BUS, or press plot beside an item of a packet.");
  const element = h("section", { class: "card" }, h("h1", {}, "Plot"), adder(() => changed()), tools, canvas, empty, list.element);
  let drag = null, isChosen = false;

  function changed() {
    list.fill();
    if (!isChosen) own.checked = new Set([...lines.values()].map((line) => line.form.units)).size > 1;
    tools.hidden = canvas.hidden = !lines.size;
    empty.hidden = lines.size > 0;
  }
  function render() {
    put(pause, frame.end === null ? "Pause (p)" : "Live (p)");
    put(state, frame.end === null ? "" : `paused at ${clock(frame.end)}`);
    if (lines.size) draw(canvas, [...lines.values()], frame, { limits: ranges.checked, own: own.checked, drag });
    list.show(frame.pointer);
  }
  const share = (event) => Math.min(1, Math.max(0, (event.offsetX - 56) / Math.max(1, canvas.clientWidth - 66)));
  const moment = (event) => frame.from + share(event) * frame.span;
  canvas.addEventListener("pointermove", (event) => { frame.pointer = moment(event); if (drag) drag[1] = frame.pointer; });
  canvas.addEventListener("pointerleave", () => (frame.pointer = null));
  canvas.addEventListener("pointerdown", (event) => { drag = [moment(event), moment(event)]; canvas.setPointerCapture(event.pointerId); });
  canvas.addEventListener("pointerup", () => { if (drag) frame.choose(Math.min(...drag), Math.max(...drag)); drag = null; });
  canvas.addEventListener("wheel", (event) => { event.preventDefault(); frame.zoom(event.deltaY > 0 ? 1.25 : 0.8, share(event)); }, { passive: false });
  canvas.addEventListener("dblclick", () => Object.assign(frame, { span: 60, end: null }));

  function key(pressed) {
    const step = (by) => (frame.pointer = Math.min(frame.to, Math.max(frame.from, (frame.pointer ?? frame.to) + by * frame.span / 100)));
    const act = { p: () => frame.pause(), "+": () => frame.zoom(0.5), "-": () => frame.zoom(2), ArrowLeft: () => step(-1), ArrowRight: () => step(1) }[pressed];
    act?.();
    return Boolean(act);
  }
  const timer = setInterval(render, 100);
  changed();
  return { element, topics: ["limits"], take() {}, key, leave: () => clearInterval(timer) };
}
