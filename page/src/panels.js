import { $, html, timeText } from "./dom.js";
import { text } from "./endpoint.js";

const LATEST_GONE = 8, MOST_ROWS = 24, MOST_EVENTS = 600, MANY_PAIRS = 12;
const ORDER = ["selected", "succeeded", "in-progress", "waiting"];
const LOUD = ["nominatedSend", "iceConnectionStateChange", "silent", "heard"], QUIET = ["gathered", "discoveredRecv"];
const HEADS = { pair: "", to: "", answers: "answered, of the checks sent", rtt: "the last round trip, in ms" };

/** A row of a table: `words` are its state, which the dot shows. */
function row(kind, words, kinds, to, answers, rtt) {
  const dot = html("span", { className: `dot ${kind}`, title: words });
  const first = html("td", { className: "kind" }, dot, html("span", { className: "hidden" }, `${words} `), kinds);
  return html("tr", { className: kind }, first, ...[to, answers, rtt].map((it) => html("td", {}, it)));
}

function rowOf(it) {
  const words = it.selected ? "selected" : it.nominated ? "nominated" : it.state.replace("-", " ");
  const rtt = it.rtt === null ? "" : `${Math.round(it.rtt)}`;
  return row(it.kind, words, `${it.from.kind} → ${it.to.kind}`, text(it.to.address), `${it.responses} / ${it.checksSent}`, rtt);
}

function rowOfGone(it) {
  const words = it.reason.replace("-", " ");
  return row("gone", `removed: ${words}`, words, it.path ? text(it.path.destination) : "", `${it.responses} / ${it.checksSent}`, "");
}

/** Shows an agent's pairs, its role and its state. */
export function showPairs(side, agent) {
  const local = agent.localFields(), remote = agent.remoteFields();
  const pairs = agent.pairs.map((it) => ({ ...it, kind: it.selected ? "selected" : it.state, from: local[it.local], to: remote[it.remote] }));
  const shown = [...pairs].sort((a, b) => ORDER.indexOf(a.kind) - ORDER.indexOf(b.kind)).slice(0, MOST_ROWS);
  const gone = agent.removedPairs().slice(-LATEST_GONE).reverse();
  const heads = Object.entries(HEADS).map(([name, title]) => html("th", { scope: "col", title }, name));
  const body = html("tbody", {}, ...shown.map(rowOf), ...gone.map(rowOfGone));
  $(`pairs${side}`).replaceChildren(html("table", {}, html("thead", {}, html("tr", {}, ...heads)), body));
  const dots = pairs.length > MANY_PAIRS ? pairs.map((it) => html("span", { className: `dot ${it.kind}` })) : [];
  $(`dots${side}`).replaceChildren(...dots);
  const state = $(`state${side}`);
  state.className = `state ${agent.state}`;
  state.textContent = agent.state;
  $(`part${side}`).textContent = agent.controlling ? "controlling" : "controlled";
}

// What the viewer does, in words: of a switch for 0 and for 1.
const ACTIONS = {
  cutAB: ["you mend A → B", "you cut A → B"], cutBA: ["you mend B → A", "you cut B → A"],
  cutRelay: ["you mend the relay", "you cut the relay"], wifi: ["A's wifi is off", "A's wifi is on"],
  restart: "ICE restart of A", say: "A sends media", forge: "an attacker forges a check", replay: "an attacker replays a check",
  flood: "an attacker begins a flood",
};

function deedText({ do: name, value }) {
  const words = ACTIONS[name];
  return Array.isArray(words) ? words[value] : words ?? `${name}: ${value}`;
}

function refusedText({ source, unchanged }) {
  const changed = { true: ": nothing changed", false: ", and CHANGED" }[unchanged] ?? "";
  return `refuses a packet of ${text(source)}${changed}`;
}

/** The words of an event of the session. */
function eventText(it) {
  switch (it.what) {
    case "gathered": return `has ${it.kind} ${text(it.address)}`;
    case "iceRestart": return `IceRestart: the session begins as ${it.event.creds.ufrag}`;
    case "iceConnectionStateChange": return `is ${it.event.state}`;
    case "discoveredRecv": return `DiscoveredRecv ${text(it.event.source)}`;
    case "nominatedSend": return `NominatedSend ${text(it.event.source)} → ${text(it.event.destination)}`;
    case "silent": return `Silent: no packet from ${text(it.event.destination)} for 5 s`;
    case "heard": return `Heard again: ${text(it.event.destination)}`;
    case "media": return `gets media: “${it.text}” from ${text(it.source)}`;
    case "rubbish": return `gets ${it.length} bytes that are not STUN, from ${text(it.source)}`;
    case "refused": return refusedText(it);
    case "action": return deedText(it.action);
    default: return it.what;
  }
}

/** The list of events. It only grows, until there is a new session. */
export class Log {
  #shown = 0;
  #list = $("log");
  #follows = true; // the viewer has not scrolled up

  constructor() {
    const list = this.#list;
    const look = () => (this.#follows = list.scrollTop + list.clientHeight > list.scrollHeight - 24);
    for (const name of ["wheel", "touchmove", "keydown", "pointerup"]) {
      list.addEventListener(name, () => requestAnimationFrame(look), { passive: true });
    }
  }

  clear() {
    this.#shown = 0;
    this.#follows = true;
    this.#list.replaceChildren();
  }

  show(events) {
    for (; this.#shown < events.length; this.#shown++) this.#list.append(this.#row(events[this.#shown]));
    while (this.#list.childElementCount > MOST_EVENTS) this.#list.firstChild.remove();
    if (this.#follows) this.#list.scrollTop = this.#list.scrollHeight;
  }

  #row(it) {
    const words = html(LOUD.includes(it.what) ? "strong" : "span", { className: QUIET.includes(it.what) ? "quiet" : "" }, eventText(it));
    return html("li", {}, html("time", {}, timeText(it.at)), html("span", { className: `side ${it.side}` }, it.side), words);
  }
}

/** What came of the session, in a sentence. */
export function outcome({ events, endpoints, server, tracks, now }) {
  const firsts = ["A", "B"].map((side) => events.find((it) => it.side === side && it.what === "nominatedSend")?.at);
  if (["A", "B"].some((side) => endpoints[side].agent.state === "disconnected")) return "No path is left.";
  if (firsts.includes(undefined)) return firsts.some(Boolean) ? "One side has a path." : now > 0 ? "Looking for a path." : "";
  const path = endpoints.A.agent.nominatedPair, isRestarted = events.some((it) => it.what === "action" && it.action.do === "restart");
  const isRelayed = path && [path.source, path.destination].some(({ address }) => address === server.address.address);
  const kind = !path ? "none now" : isRelayed ? "over the relay" : "direct";
  const packets = tracks.filter((it) => it.message && !it.isHostile && it.sent <= now).length;
  return `Both had a path after ${timeText(Math.max(...firsts))}. Now: ${kind}${isRestarted ? ", after a restart" : ""}. ${packets} packets.`;
}
