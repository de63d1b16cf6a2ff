// Commands: a form from the definitions, the text that it makes, what was sent and what was answered.
import { clock, h, put, whole } from "./dom.js";

/** How many rows a list shows. */
const MOST = 400;

const quoted = (text) => (text.includes("'") ? `"${text}"` : `'${text}'`);
const isNumber = (item) => item.kind === "UINT" || item.kind === "INT";

/** A parameter that can have one value alone, as an id. */
const isFixed = (item) => isNumber(item) && item.min === item.max;

/** What may stand in a field. */
function range(item) {
  if (item.min != null) return `${item.min} .. ${item.max}`;
  return `${item.kind === "STRING" ? "text" : "0x and hexadecimal digits"}${item.size ? `, ${item.size / 8} bytes` : ""}`;
}

function option(item, state) {
  const chosen = !item.required && state.value === item.default;
  return h("option", { value: state.name, selected: chosen }, state.hazardous ? `${state.name}  ⚠ hazardous` : state.name);
}

const plainInput = (item) => ({
  value: item.required ? "" : item.default, placeholder: item.required ? item.default : "", inputmode: isNumber(item) ? "numeric" : "text",
});

/** The field of a parameter, and what it holds as a word of a command text. */
function field(item, changed) {
  const id = `parameter-${item.name}`;
  const input = item.states.length
    ? h("select", { id, onchange: changed }, item.required ? h("option", { value: "" }, "choose …") : "", item.states.map((state) => option(item, state)))
    : h("input", { id, ...plainInput(item), spellcheck: "false", autocomplete: "off", oninput: changed });
  const first = input.value;
  const word = () => (item.states.length ? input.value : isNumber(item) ? input.value.trim() : quoted(input.value));
  const isGiven = () => input.value !== first || (item.required && input.value !== "");
  const hint = h("span", { class: "hint" }, item.about ? `${item.about} · ${range(item)}` : range(item), item.units ? ` ${item.units}` : "");
  return { item, input, word, isGiven, rows: [h("label", { for: id, class: item.required ? "must" : "" }, item.name), input, hint] };
}

/** The list of commands, with a search. */
function finder(app, current) {
  const cells = new Map(), list = h("div", { class: "list" });
  const search = h("input", { class: "search", type: "search", placeholder: "Search commands  ( / )", "aria-label": "Search commands", oninput: () => fill() });
  let counts = {};

  function fill() {
    const words = search.value.toUpperCase().split(/\s+/).filter(Boolean);
    const rows = [];
    let target = "";
    cells.clear();
    for (const command of app.forms.commands) {
      const name = `${command.target} ${command.name}`;
      if (!words.every((word) => name.includes(word))) continue;
      if (command.target !== target) rows.push(h("h3", {}, (target = command.target)));
      const count = h("span", { class: "soft" });
      cells.set(name, count);
      const link = { href: `#commands/${command.target}/${command.name}`, "aria-current": name === current && "true", title: command.about };
      rows.push(h("a", link, h("span", {}, command.name, command.hazardous ? " ⚠" : ""), count));
      if (rows.length > MOST) {
        rows.push(h("p", { class: "empty" }, "There are more: search for them by a part of their names."));
        break;
      }
    }
    list.replaceChildren(...(rows.length ? rows : [h("p", { class: "empty" }, "No command has such a name.")]));
    show();
  }
  function show() {
    for (const [name, cell] of cells) put(cell, counts[name] ? `${whole(counts[name])} sent` : "");
  }
  fill();
  return { element: h("section", { class: "card" }, search, list), take: (data) => { counts = data; show(); } };
}

/** Why a command is hazardous with these values, or null. */
function hazard(command, words) {
  if (command.hazardous) return command.hazard || "It is hazardous";
  for (const item of command.items) {
    const given = words.get(item.name) ?? item.default;
    const state = item.states.find((one) => one.hazardous && (one.name === given || one.value === given));
    if (state) return state.hazard || `${item.name} ${state.name} is hazardous`;
  }
  return null;
}

/** Sends a command text; a hazardous one is asked for once more. */
async function send(app, text, why, ranges) {
  let hazardous = why !== null;
  for (;;) {
    if (hazardous && !(await app.question("Hazardous command", `${text}\n\n${why ?? "The server says that this command is hazardous."}. Send it?`, "Send it"))) return null;
    const method = ranges ? (hazardous ? "cmd_no_hazardous_check" : "cmd") : hazardous ? "cmd_no_checks" : "cmd_no_range_check";
    const said = await app.ask(method, [text]);
    if (!said.hazardous || hazardous) return said;
    hazardous = true;
  }
}

function form(app, command) {
  const changed = () => {
    const given = fields.filter((one) => one.isGiven());
    text.value = `${command.target} ${command.name}${given.length ? ` with ${given.map((one) => `${one.item.name} ${one.word()}`).join(", ")}` : ""}`;
    for (const one of fields) one.input.classList.toggle("wrong", isOut(one));
  };
  const isOut = ({ item, input }) => {
    if (!isNumber(item) || item.states.length || input.value.trim() === "" || item.min == null) return false;
    try {
      const value = BigInt(input.value.trim().replace(/^\+/, ""));
      return value < BigInt(item.min) || value > BigInt(item.max);
    } catch {
      return !/^-0x[0-9a-f]+$/i.test(input.value.trim());
    }
  };
  const fields = command.items.map((item) => field(item, changed));
  const plain = fields.filter((one) => !isFixed(one.item)), fixed = fields.filter((one) => isFixed(one.item));
  const text = h("input", { class: "command-text", "aria-label": "command text", spellcheck: "false", autocomplete: "off" });
  const ranges = h("input", { type: "checkbox", checked: true }), answer = h("div", { role: "status" });

  async function submit(event) {
    event.preventDefault();
    const words = new Map(fields.filter((one) => one.isGiven()).map((one) => [one.item.name, one.word()]));
    const said = await send(app, text.value, hazard(command, words), ranges.checked);
    answer.className = said ? `answer ${said.error ? "bad" : "good"}` : "answer soft";
    put(answer, said ? (said.error ? `not sent: ${said.error}` : `sent: ${said.result[0]} ${said.result[1]}`) : "not sent");
    if (said?.lost) put(answer, said.error);
  }
  const element = h("section", { class: "card" },
    h("div", { class: "head" }, h("h1", {}, `${command.target} ${command.name}`), command.hazardous ? h("span", { class: "chip red" }, h("b", {}, "⚠"), "hazardous") : ""),
    h("p", { class: "soft" }, command.about, command.interface ? ` (${command.interface})` : " (no interface)"),
    h("form", { onsubmit: submit },
      h("div", { class: "form" }, plain.flatMap((one) => one.rows)),
      fixed.length ? h("details", {}, h("summary", {}, `${fixed.length} fields with one value each`), h("div", { class: "form" }, fixed.flatMap((one) => one.rows))) : "",
      h("p", { class: "small soft" }, "The command text, which may be changed by hand:"), text,
      h("div", { class: "tools", style: "margin-top:10px" }, h("button", { id: "send" }, "Send"), h("label", { class: "small" }, ranges, " check ranges")), answer));
  changed();
  return element;
}

export function commands(app, [target, name]) {
  const command = app.forms.commands.find((one) => one.target === target && one.name === name);
  const left = finder(app, `${target} ${name}`), log = h("ul", { class: "events", id: "sent" });
  const right = command ? form(app, command) : h("section", { class: "card" }, h("h1", {}, "Commands"), h("p", { class: "soft" }, "Choose a command: its form comes from the definitions."));

  async function again({ method, params }) {
    const asks = method === "cmd_no_hazardous_check" || method === "cmd_no_checks";
    await send(app, params[0], asks ? "It was hazardous before" : null, !method.includes("range") && method !== "cmd_no_checks");
  }
  function showSent(list) {
    const rows = [...list].reverse().filter((one) => one.method.startsWith("cmd")).map((one) => h("li", {},
      h("time", {}, clock(one.time)), h("span", { class: "grow mono" }, one.params.join(" ")),
      h("span", { class: `chip ${one.error ? "red" : "green"}` }, h("b", {}, one.error ? "✕" : "✓"), one.error ?? `sent at entry ${one.front}`),
      h("button", { class: "plain tiny", onclick: () => again(one) }, "send again")));
    log.replaceChildren(...(rows.length ? rows : [h("li", { class: "empty" }, "Nothing was sent from this console yet.")]));
  }
  const element = h("div", { class: "split" }, left.element, h("div", {}, right, h("section", { class: "card" }, h("h2", {}, "Sent from this console"), log)));
  return {
    element, topics: ["commands"],
    take(topic, data) {
      if (topic === "commands") left.take(data);
      if (topic === "sent") showSent(data);
    },
  };
}
