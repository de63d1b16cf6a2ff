// Overview: interfaces, how full the history is, what is out of limits, the last events and commands.
import { bytes, chip, clock, eventRow, h, span, table, whole } from "./dom.js";

export function overview(app) {
  const history = h("div"), out = h("div"), [interfaces, rows] = table(["Interface", "State", ["Connections", "right"], ["Packets", "right"], ["Commands", "right"]], "stack");
  const events = h("ul", { class: "events" }), sent = h("ul", { class: "events" }), counts = h("ul", { class: "events more" });
  const element = h("div", {},
    h("div", { class: "cards" }, h("section", { class: "card" }, h("h2", {}, "History"), history), h("section", { class: "card" }, h("h2", {}, "Out of limits"), out)),
    h("section", { class: "card" }, h("h2", {}, "Interfaces"), interfaces),
    h("div", { class: "cards" },
      h("section", { class: "card" }, h("h2", {}, "Last limits events"), events),
      h("section", { class: "card" }, h("h2", {}, "Commands, by whomever"), counts, h("h2", {}, "Sent from this console"), sent)));

  function showHistory({ entries, bytes: size }) {
    const meter = (share) => h("div", { class: `meter ${share > 0.9 ? "much" : ""}`, role: "img", "aria-label": `${(100 * share).toFixed(1)} % full` },
      h("i", { style: `width:${100 * Math.min(1, share)}%` }));
    const left = [entries.left, size.left].filter((seconds) => seconds != null);
    const when = left.length ? `full in ${span(Math.min(...left))} at this rate` : entries.rate === 0 ? "nothing comes" : "its rate is being measured";
    history.replaceChildren(
      h("div", { class: "big" }, whole(entries.now), h("span", { class: "soft small" }, " entries")), meter(entries.now / entries.most),
      h("p", { class: "small soft" }, `${(100 * entries.now / entries.most).toFixed(2)} % of ${whole(entries.most)}`, entries.rate ? `, ${entries.rate.toFixed(1)} a second` : ""),
      meter(size.now / size.most), h("p", { class: "small soft" }, `at least ${bytes(size.now)} of ${bytes(size.most)} packets and commands`),
      h("p", { class: "small" }, when));
  }

  function showOut(list) {
    out.replaceChildren(list.length
      ? h("ul", { class: "events" }, list.slice(0, 40).map(([target, packet, item, state]) => h("li", {},
        h("a", { class: "grow", href: `#packets/${target}/${packet}/${item}` }, `${target} ${packet} ${item}`), chip(state))))
      : h("p", { class: "empty" }, "Every item is within its limits."));
  }

  function showInterfaces(list) {
    rows.replaceChildren(...list.map(({ name, state, connections, received, sent: count }) => {
      const is = state === "CONNECTED";
      return h("tr", {}, h("td", {}, name), h("td", {}, h("span", { class: `chip ${is ? "green" : "yellow"}` }, h("b", {}, is ? "✓" : "✕"), (state ?? "?").toLowerCase())),
        h("td", { class: "right", title: "seen by this console", "data-name": "connections" }, connections),
        h("td", { class: "right", "data-name": "packets" }, whole(received)), h("td", { class: "right", "data-name": "commands" }, whole(count)));
    }));
  }

  function showEvents(list) {
    events.replaceChildren(...(list.length ? [...list].reverse().map(eventRow) : [h("li", { class: "empty" }, "None yet.")]));
  }

  function showSent(list) {
    const items = [...list].reverse().slice(0, 12).map(({ time, method, params, error }) => h("li", {},
      h("time", {}, clock(time)), h("span", { class: "grow mono" }, `${method.startsWith("cmd") ? "" : `${method} `}${params.join(" ")}`),
      h("span", { class: `chip ${error ? "red" : "green"}` }, h("b", {}, error ? "✕" : "✓"), error ?? "done")));
    sent.replaceChildren(...(items.length ? items : [h("li", { class: "empty" }, "None was sent from here. ", h("a", { href: "#commands" }, "Send one"))]));
  }

  function showCounts(list) {
    const rows = list.map(([target, name, count, seen]) => h("li", {},
      h("a", { class: "grow", href: `#commands/${target}/${name}` }, `${target} ${name}`),
      h("span", { class: "soft" }, `${whole(count)} sent${seen ? `, the last seen ${app.since(seen) < 1 ? "just now" : `${span(app.since(seen))} ago`}` : ""}`)));
    counts.replaceChildren(...(rows.length ? rows : [h("li", { class: "empty" }, "None was sent yet.")]));
  }

  return {
    element, topics: ["overview"],
    take(topic, data) {
      if (topic === "sent") return showSent(data);
      if (topic !== "overview") return;
      showHistory(data.history);
      showOut(data.out);
      showInterfaces(data.interfaces);
      showEvents(data.events);
      showCounts(data.sent);
    },
  };
}
