// The frame of all pages: it picks the page by the address, hears what changes, and shows the server's state.
import { h, put, span } from "./dom.js";
import { overview } from "./overview.js";
import { packets } from "./packets.js";
import { limits } from "./limits.js";
import { commands } from "./commands.js";
import { plot, plotTake, plotTopics, usePlot } from "./plot.js";

const PAGES = { overview: ["Overview", overview], packets: ["Packets", packets], limits: ["Limits", limits], commands: ["Commands", commands], plot: ["Plot", plot] };
const find = (id) => document.getElementById(id);

const app = {
  forms: null,
  server: { state: "looking" },
  sent: [],
  /** Seconds since a moment of the console's clock. */
  since: (time) => Date.now() / 1000 - time,
  /** Asks a method that changes something: its result, or its error. */
  async ask(method, params) {
    try {
      const response = await fetch("ask", { method: "POST", headers: { "Content-Type": "application/json" }, body: JSON.stringify({ method, params }) });
      return response.ok ? await response.json() : { error: (await response.text()).trim() };
    } catch {
      return { error: "the console does not answer: was it ended?", lost: true };
    }
  },
  /** Asks the operator: whether the answer is yes. */
  question(title, text, yes) {
    put(find("question-title"), title);
    put(find("question-text"), text);
    put(find("question-yes"), yes);
    const dialog = find("question");
    dialog.returnValue = "no";
    dialog.showModal();
    find("question-no").focus();
    return new Promise((done) => dialog.addEventListener("close", () => done(dialog.returnValue === "yes"), { once: true }));
  },
  /** Looks at other topics than before. */
  look: () => listen(),
};

let view = null;
let stream = null;
let heard = "";

function wanted() {
  const page = document.hidden ? [] : view?.topics ?? [];
  return [...new Set([...page, ...plotTopics()])];
}

/** Hears what changes of the topics that are looked at. */
function listen() {
  const topics = wanted();
  const query = topics.map((topic) => `look=${encodeURIComponent(topic)}`).join("&");
  if (stream && query === heard && stream.readyState !== EventSource.CLOSED) return;
  stream?.close();
  heard = query;
  if (document.hidden && !topics.length) return (stream = null);
  stream = new EventSource(`events?${query}`);
  stream.onmessage = (message) => take(JSON.parse(message.data));
  stream.onopen = () => showServer();
  stream.onerror = () => showLost("The console does not answer. It is looked for; was console/run ended?");
}

function take({ topic, data }) {
  if (topic === "server") {
    if (data.servers > app.server.servers) showNews("Another server answers now: its history, its counts and its limits begin anew.");
    app.server = { servers: app.server.servers, ...data };
    showServer();
  } else if (topic === "sent") app.sent = data;
  plotTake(topic, data);
  view?.take(topic, data);
}

function showLost(text) {
  find("lost").hidden = !text;
  put(find("lost"), text);
}

/** Says something for some seconds. */
function showNews(text) {
  find("news").hidden = false;
  put(find("news"), text);
  setTimeout(() => (find("news").hidden = true), 10000);
}

function showServer() {
  const { state, since, why, set, out, red } = app.server;
  find("server").className = `state ${state}`;
  put(find("server"), state === "up" ? "server up" : state === "lost" ? `server lost, ${span(app.since(since))}` : "looking for the server");
  showLost(state === "lost" ? `The server does not answer (${why}). It is looked for, and what you see is from before.` : "");
  find("stop").disabled = state !== "up";
  if (state !== "up") return;
  put(find("set"), `limits set ${set}`);
  find("out").className = `chip ${red ? "red" : out ? "yellow" : "quiet"}`;
  put(find("out"), out ? `${red ? "R" : "Y"} ${out} out of limits` : "all within limits");
}

function show() {
  const [name, ...rest] = location.hash.slice(1).split("/").map(decodeURIComponent);
  if (name === "view") return find("view").focus();
  const [title, make] = PAGES[name] ?? PAGES.overview;
  view?.leave?.();
  view = make(app, rest);
  find("view").replaceChildren(view.element);
  document.title = `${title} · Rigmosed`;
  for (const link of find("tabs").children) {
    if (link.dataset.page === (name in PAGES ? name : "overview")) link.setAttribute("aria-current", "page");
    else link.removeAttribute("aria-current");
  }
  view.take("sent", app.sent);
  listen();
}

function onKey(event) {
  const typing = event.target.matches("input, select, textarea") || document.querySelector("dialog[open]");
  if (event.key === "Escape" && event.target.matches("input, select")) event.target.blur();
  if (typing || event.ctrlKey || event.altKey || event.metaKey) return;
  const page = Object.keys(PAGES)[Number(event.key) - 1];
  if (page) location.hash = page;
  else if (event.key === "/") document.querySelector(".search")?.focus();
  else if (event.key === "?") find("keys").showModal();
  else if (!view?.key?.(event.key)) return;
  event.preventDefault();
}

async function stop() {
  const text = "Stop the server? All devices and clients are disconnected, and the logs are written to their end. It has to be started again by hand, or by whoever keeps it.";
  if (await app.question("Stop the server", text, "Stop the server")) {
    const said = await app.ask("stop_server", []);
    if (said.error) showLost(`stop_server: ${said.error}`);
  }
}

async function start() {
  find("tabs").append(...Object.entries(PAGES).map(([page, [title]], at) => h("a", { href: `#${page}`, "data-page": page }, title, h("kbd", { "aria-hidden": "true" }, at + 1))));
  app.forms = await (await fetch("forms")).json();
  usePlot(app);
  find("stop").addEventListener("click", stop);
  find("help-button").addEventListener("click", () => find("keys").showModal());
  addEventListener("hashchange", show);
  addEventListener("keydown", onKey);
  document.addEventListener("visibilitychange", listen);
  setInterval(() => app.server.state === "lost" && showServer(), 1000);
  show();
}

start();
