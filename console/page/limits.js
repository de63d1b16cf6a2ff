// Limits: the sets, current values against their limits as bars, events as they come; enable, disable, set.
import { chip, eventRow, h, light, put, putChip } from "./dom.js";

const NAMES = [["red low", 3], ["yellow low", 4], ["green low", 7], ["green high", 8], ["yellow high", 5], ["red high", 6]];

/** The zones of a bar from its left end, each with its end, its colour and its letters. */
function zones([, , , ...texts]) {
  const [rl, yl, yh, rh, gl, gh] = texts.map((text) => (text == null ? null : Number(text)));
  const room = (rh - rl || 1) * 0.12;
  const middle = gl == null ? [[yh, "green", "G"]] : [[gl, "green", "GL"], [gh, "blue", "B"], [yh, "green", "GH"]];
  return { from: rl - room, to: rh + room, parts: [[rl, "red", "RL"], [yl, "yellow", "YL"], ...middle, [rh, "yellow", "YH"], [rh + room, "red", "RH"]] };
}

function bar(limits) {
  const { from, to, parts } = zones(limits), marker = h("i", { hidden: true });
  let at = from;
  const spans = parts.map(([end, colour, letters]) => {
    const width = Math.max(0, (100 * (end - at)) / (to - from));
    at = end;
    return h("span", { class: colour, style: `width:${width}%` }, width > 6 ? letters : "");
  });
  const said = limits.slice(3).filter((text) => text != null).join(" ");
  const element = h("div", { class: `limit-bar ${limits[2] ? "" : "off"}`, role: "img", "aria-label": `limits ${said}`, title: said }, spans, marker);
  return { element, move(value) {
    marker.hidden = !Number.isFinite(value);
    marker.style.left = `${Math.min(99.5, Math.max(0.5, (100 * (value - from)) / (to - from)))}%`;
  } };
}

/** One item: its value, bar, state and what may be done. */
function row(app, name, show) {
  const names = name.split(" ");
  const value = h("td", { class: "value" }), state = h("td"), place = h("td", { class: "wide" }), form = h("div", { hidden: true }), answer = h("div", { hidden: true });
  const toggle = h("button", { class: "plain tiny", onclick: () => act(row.limits[2] ? "disable_limits" : "enable_limits", names) });
  const change = h("button", { class: "plain tiny", "aria-expanded": "false", onclick: () => open(form.hidden) }, "set …");
  const numbers = h("div", { class: "small soft" });
  const row = { limits: null, bar: null, seen: null };
  row.element = h("tr", { "data-item": name }, h("td", {}, h("a", { href: `#packets/${names.join("/")}` }, h("b", {}, name)), numbers, form, answer), value, state, place, h("td", { class: "right wide buttons" }, toggle, change));

  async function act(method, params) {
    const said = await app.ask(method, params);
    answer.hidden = false;
    answer.className = `answer small ${said.error ? "bad" : "good"}`;
    put(answer, said.error ? `${method}: ${said.error}` : `${method.replace("_", " ")}: done`);
    if (!said.error) setTimeout(() => (answer.hidden = true), 4000);
    return !said.error;
  }

  function open(is) {
    form.hidden = !is;
    change.setAttribute("aria-expanded", String(is));
    if (!is) return change.focus();
    const fields = NAMES.map(([label, at]) => h("label", {}, label, h("input", { inputmode: "decimal", value: row.limits[at] ?? "", placeholder: at > 6 ? "none" : "", "data-at": at })));
    const also = h("input", { type: "checkbox", checked: app.server.set !== "CUSTOM" });
    form.replaceChildren(h("form", { onsubmit: (event) => set(event, also.checked) }, h("div", { class: "six" }, fields),
      h("div", { class: "tools" }, h("button", {}, "Set limits"), h("button", { type: "button", class: "plain", onclick: () => open(false) }, "Cancel"), h("label", { class: "small" }, also, " and make CUSTOM the current set"))));
    form.querySelector("input").focus();
  }

  async function set(event, chooses) {
    event.preventDefault();
    const given = Object.fromEntries([...form.querySelectorAll("input[data-at]")].map((input) => [input.dataset.at, input.value.trim()]));
    const green = given[7] && given[8] ? [given[7], given[8]] : [];
    if (await act("set_limits", [...names, given[3], given[4], given[5], given[6], ...green])) {
      if (chooses) await act("set_limits_set", ["CUSTOM"]);
      open(false);
    }
  }

  row.take = ({ limits, value: [text, colour] }) => {
    if (JSON.stringify(limits) !== JSON.stringify(row.limits)) {
      row.limits = limits;
      row.bar = bar(limits);
      place.replaceChildren(row.bar.element);
      put(toggle, limits[2] ? "disable" : "enable");
      put(numbers, `${limits[0]}  ${limits.slice(3).filter((one) => one != null).join("  ")}${limits[1] > 1 ? `  after ${limits[1]} in a row` : ""}${limits[2] ? "" : "  (disabled)"}`);
    }
    if (text !== row.seen && row.seen !== null) light(value);
    row.seen = text;
    put(value, text ?? "–");
    row.bar.move(Number(text ?? NaN));
    putChip(state, colour);
  };
  return row;
}

export function limits(app, wanted) {
  const rows = new Map(), marked = wanted.join(" ");
  const search = h("input", { class: "search", type: "search", placeholder: "Search items with limits  ( / )", "aria-label": "Search items with limits", value: marked, oninput: () => filter() });
  const out = h("input", { type: "checkbox", onchange: () => filter() });
  const sets = h("select", { "aria-label": "current limits set", onchange: () => choose() });
  const body = h("tbody"), events = h("ul", { class: "events" }), answer = h("span", { class: "small soft" });
  const table = h("table", { class: "stack" }, h("thead", {}, h("tr", {}, ["Item", "Value", "State", "Against its limits", ""].map((head) => h("th", { scope: "col" }, head)))), body);
  const empty = h("p", { class: "empty" }, "No item of the definitions has limits.");

  async function choose() {
    const said = await app.ask("set_limits_set", [sets.value]);
    put(answer, said.error ? `${sets.value}: ${said.error === "Unknown limits set" ? "nobody gave limits of this set yet" : said.error}` : "");
    if (said.error) sets.value = app.server.set;
  }

  function filter() {
    const words = search.value.toUpperCase().split(/\s+/).filter(Boolean);
    let shown = 0;
    for (const [name, one] of rows) {
      const fits = words.every((word) => name.includes(word)) && (!out.checked || ["yellow", "red"].includes((one.state ?? "").split("_")[0].toLowerCase()));
      one.element.hidden = !fits;
      shown += fits;
    }
    put(empty, rows.size ? "No such item." : "No item of the definitions has limits, or none was asked yet.");
    empty.hidden = shown > 0;
  }

  function showSets(current) {
    const names = [...new Set([...app.forms.sets, "CUSTOM", current])].filter(Boolean);
    if (sets.dataset.names !== names.join()) sets.replaceChildren(...names.map((name) => h("option", { value: name }, name)));
    sets.dataset.names = names.join();
    if (document.activeElement !== sets) sets.value = current;
  }

  function take(topic, data) {
    if (topic !== "limits") return;
    showSets(data.set);
    for (const one of data.rows) {
      let found = rows.get(one.item);
      if (!found) {
        rows.set(one.item, (found = row(app, one.item)));
        body.append(found.element);
      }
      found.state = one.value[1];
      found.take(one);
    }
    filter();
    const last = [...data.events].reverse().slice(0, 60);
    if (events.dataset.last !== JSON.stringify(last[0])) events.replaceChildren(...(last.length ? last.map(eventRow) : [h("li", { class: "empty" }, "None yet.")]));
    events.dataset.last = JSON.stringify(last[0]);
  }

  const element = h("div", {},
    h("section", { class: "card" }, h("div", { class: "tools" }, h("h1", {}, "Limits"), h("span", { class: "space" }), h("label", {}, "current set ", sets), answer), search,
      h("label", { class: "small" }, out, " only what is yellow or red"), table, empty),
    h("section", { class: "card" }, h("h2", {}, "Events"), events));
  return { element, topics: ["limits"], take };
}
