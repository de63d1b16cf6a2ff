// Packets: all of them with their counts and age, and the items of one.
import { h, light, put, putChip, span, table, whole } from "./dom.js";
import { plots, plotted } from "./plot.js";

/** How many rows a list shows. */
const MOST = 400;

const all = (app) => app.forms.telemetry;

/** A list of packets, or of what a search finds in names of packets and items. */
function finder(app, current) {
  const cells = new Map();
  const list = h("div", { class: "list" });
  const search = h("input", { class: "search", type: "search", placeholder: "Search packets and items  ( / )", "aria-label": "Search packets and items", oninput: () => fill() });

  function packetLink(packet) {
    const key = `${packet.target} ${packet.name}`, count = h("span", { class: "soft" });
    cells.set(key, count);
    return h("a", { href: `#packets/${packet.target}/${packet.name}`, "aria-current": key === current && "true", title: packet.about }, h("span", {}, packet.name), count);
  }

  function fill() {
    const words = search.value.toUpperCase().split(/\s+/).filter(Boolean);
    const fits = (text) => words.every((word) => text.includes(word));
    const rows = [];
    cells.clear();
    let target = "";
    for (const packet of all(app)) {
      const items = words.length ? packet.items.filter((item) => fits(`${packet.target} ${packet.name} ${item.name}`)) : [];
      if (words.length && !items.length && !fits(`${packet.target} ${packet.name}`)) continue;
      if (packet.target !== target) rows.push(h("h3", {}, (target = packet.target)));
      const found = items.slice(0, 12).map((item) => h("a", { href: `#packets/${packet.target}/${packet.name}/${item.name}` }, h("span", { class: "small" }, `  ↳ ${item.name}`)));
      rows.push(packetLink(packet), ...found);
      if (rows.length > MOST) {
        rows.push(h("p", { class: "empty" }, "There are more: search for them by a part of their names."));
        break;
      }
    }
    list.replaceChildren(...(rows.length ? rows : [h("p", { class: "empty" }, "Nothing has such a name.")]));
    show();
  }

  let counts = {};
  function show() {
    for (const [key, cell] of cells) {
      const [count, seen] = counts[key] ?? [];
      put(cell, count == null ? "" : count === 0 ? "never" : `${whole(count)}${seen ? ` · ${span(app.since(seen))}` : ""}`);
    }
  }
  fill();
  return { element: h("section", { class: "card" }, search, list), take: (data) => { counts = data; show(); }, show };
}

/** The items of a packet. */
function detail(app, packet, marked) {
  const topic = `packet ${packet.target} ${packet.name}`, count = h("span", { class: "soft" });
  const [items, body] = table(["Item", "Value", "Converted", "Raw", "State", ""], "stack items");
  const rows = packet.items.map((item) => {
    const name = h("td", {}, h("b", {}, item.name), item.about ? h("div", { class: "soft small" }, item.about) : "");
    const row = { shown: null, units: item.units, value: h("td", { class: "value" }, "–"), state: h("td") };
    row.converted = h("td", { class: "raw", "data-name": "converted" });
    row.raw = h("td", { class: "raw", "data-name": "raw" });
    const tools = h("td", { class: "right wide buttons" },
      item.kind === "UINT" || item.kind === "INT" ? plotButton(packet, item) : "",
      item.limited ? h("a", { class: "button plain tiny", href: `#limits/${packet.target}/${packet.name}/${item.name}` }, "limits") : "");
    row.element = h("tr", { id: item.name === marked ? "marked" : null }, name, row.value, row.converted, row.raw, row.state, tools);
    body.append(row.element);
    return row;
  });

  function take(data) {
    put(count, data.count ? `${whole(data.count)} received${data.seen ? `, the last ${app.since(data.seen) < 1 ? "just now" : `${span(app.since(data.seen))} ago`}` : ""}` : "never received");
    data.rows.forEach(([raw, converted, formatted, state], at) => {
      const row = rows[at], shown = `${raw}\n${converted}\n${formatted}`;
      if (row.shown !== shown) {
        put(row.value, row.units ? `${formatted} ${row.units}` : formatted);
        put(row.converted, converted);
        put(row.raw, raw);
        if (row.shown !== null) light(row.value);
        row.shown = shown;
      }
      putChip(row.state, state);
    });
  }
  const element = h("section", { class: "card" },
    h("div", { class: "head" }, h("h1", {}, `${packet.target} ${packet.name}`), count),
    h("p", { class: "soft" }, packet.about, packet.interface ? ` (${packet.interface})` : " (no interface)"), items);
  setTimeout(() => document.getElementById("marked")?.scrollIntoView({ block: "center" }));
  return { element, topic, take };
}

function plotButton(packet, item) {
  const name = `${packet.target} ${packet.name} ${item.name}`;
  return h("button", { class: "plain tiny", title: `plot ${name}`, onclick: () => { plots(name); location.hash = "plot"; } }, plotted(name) ? "plotted" : "plot");
}

export function packets(app, [target, name, marked]) {
  const packet = all(app).find((one) => one.target === target && one.name === name);
  const left = finder(app, `${target} ${name}`);
  const right = packet ? detail(app, packet, marked) : null;
  const empty = h("section", { class: "card" }, h("h1", {}, "Packets"), h("p", { class: "soft" }, "Choose a packet, or search for an item by its name."));
  const timer = setInterval(left.show, 1000);
  return {
    element: h("div", { class: "split" }, left.element, right?.element ?? empty), topics: ["packets", ...(right ? [right.topic] : [])],
    take(topic, data) {
      if (topic === "packets") left.take(data);
      if (topic === right?.topic) right.take(data);
    },
    leave: () => clearInterval(timer),
  };
}
