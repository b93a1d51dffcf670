// Connects to the demonstration, and draws what its agent reports.
"use strict";
const $ = id => document.getElementById(id);
const COLORS = {New: "#9aa7b3", Checking: "#e8a317", Connected: "#3a7bd5", Completed: "#2e9e5b", Disconnected: "#cf3f3f",
                new: "#9aa7b3", checking: "#e8a317", connected: "#3a7bd5", completed: "#2e9e5b", disconnected: "#d98324",
                failed: "#cf3f3f", closed: "#6b7785"};
let session = null;

const node = (name, attributes, text = "") => {
  const made = document.createElementNS("http://www.w3.org/2000/svg", name);
  for (const [key, value] of Object.entries(attributes)) made.setAttribute(key, value);
  made.textContent = text;
  return made;
};
const item = (list, ...content) => {
  const line = document.createElement("li");
  line.append(...content);
  list.append(line);
  list.scrollTop = list.scrollHeight;
};

async function connect() {
  close();
  const pc = new RTCPeerConnection(), channel = pc.createDataChannel("talk");
  const states = [[performance.now(), "new"]];
  session = {pc, channel, states, start: 0, last: ""};
  const mine = session;
  $("talk").replaceChildren();
  pc.oniceconnectionstatechange = () => states.push([performance.now(), pc.iceConnectionState]);
  pc.ontrack = e => { $("picture").srcObject = new MediaStream([e.track]); };
  pc.addTransceiver("video", {direction: "recvonly"});
  channel.onopen = () => { item($("talk"), "the data channel is open"); say("hello from the page"); };
  channel.onmessage = e => item($("talk"), "\u2190 " + e.data);
  await pc.setLocalDescription();
  while (pc.iceGatheringState !== "complete") await new Promise(go => setTimeout(go, 5));
  if (mine !== session) return;
  session.start = performance.now();
  const reply = await (await fetch("/offer", {method: "POST", body: JSON.stringify({sdp: pc.localDescription.sdp})})).json();
  if (mine !== session) return;
  session.events = new EventSource("/events/" + reply.number);
  session.events.onmessage = e => draw(JSON.parse(e.data)[0]);
  await pc.setRemoteDescription({type: "answer", sdp: reply.sdp});
}

function close() {
  if (!session) return;
  session.events?.close();
  session.pc.close();
  session = null;
}

function say(text) {
  if (session?.channel.readyState !== "open") return;
  session.channel.send(text);
  item($("talk"), "\u2192 " + text);
}

// ---- drawing

function draw(told) {
  if (!told || !session) return;
  session.zero = told.events.length ? told.first : told.seconds;
  $("role").textContent = `\u2013 the agent is ${told.role ?? "closed"}, the browser made the offer`;
  drawStates(told);
  drawPairs(told);
  const {stats} = told;
  if (stats) $("figures").textContent = `checks sent ${stats.bind_request_sent} \u00b7 responses received ${stats.bind_success_recv} \u00b7 ` +
    `requests served ${stats.bind_request_recv} \u00b7 round trip ${told.rtt_ms === null ? "unknown" : told.rtt_ms.toFixed(2) + " ms"}`;
  const last = JSON.stringify(told.events);
  if (last === session.last) return;
  session.last = last;
  $("events").replaceChildren();
  for (const [seconds, text] of told.events) {
    const time = document.createElement("b");
    time.textContent = (1000 * (seconds - session.zero)).toFixed(0) + " ms";
    item($("events"), time, text);
  }
}

// Two strips from the agent's first event until now, on a logarithmic scale: most happens in the first 100 ms.
function drawStates(told) {
  const svg = $("states"), end = Math.max(told.seconds - session.zero, 0.1), [left, width] = [70, 640];
  const x = seconds => left + width * Math.log1p(100 * seconds) / Math.log1p(100 * end);
  svg.replaceChildren();
  const since = at => Math.max(at - session.zero, 0);
  const agent = told.states.map(([at, state]) => [since(at), state]);
  const browser = session.states.map(([at, state]) => [since((at - session.start) / 1000), state]);
  const rows = [["agent", [[0, "New"], ...agent]], ["browser", browser]];
  rows.forEach(([name, states], row) => {
    const y = 4 + 24 * row;
    svg.append(node("text", {x: 0, y: y + 14, class: "name"}, name));
    states.forEach(([since, state], i) => {
      const from = x(Math.min(since, end)), to = x(Math.min(states[i + 1]?.[0] ?? end, end));
      svg.append(node("rect", {x: from, y, width: Math.max(to - from, 1), height: 19, fill: COLORS[state] ?? "#999"}));
      if (to - from > 8 * state.length) svg.append(node("text", {x: from + 5, y: y + 14, class: "inside"}, state));
    });
  });
  for (const at of [0.01, 0.1, 1, 10, 100, 1000].filter(at => at < 0.8 * end))
    svg.append(node("text", {x: x(at), y: 61, class: "name"}, at < 1 ? `${1000 * at} ms` : `${at} s`));
  svg.append(node("text", {x: 662, y: 61, class: "name"}, `${end.toFixed(1)} s`));
}

function drawPairs(told) {
  const svg = $("pairs"), locals = [...new Set(told.pairs.map(p => p.local))], remotes = [...new Set(told.pairs.map(p => p.remote))];
  const height = 12 + 34 * Math.max(locals.length, remotes.length, 1), before = session.checks ?? {};
  svg.setAttribute("viewBox", `0 0 720 ${height}`);
  svg.replaceChildren();
  session.checks = {};
  const middle = (all, one) => 22 + 34 * all.indexOf(one);
  told.pairs.forEach((pair, i) => {
    const key = pair.local + pair.remote, sum = pair.checks_sent + pair.checks_received;
    const selected = told.selected && told.selected[0] === pair.local && told.selected[1] === pair.remote;
    const kind = [pair.nominated && "nominated", selected && "selected", key in before && before[key] !== sum && "busy"];
    session.checks[key] = sum;
    const [y1, y2] = [middle(locals, pair.local), middle(remotes, pair.remote)];
    svg.append(node("line", {x1: 240, y1, x2: 480, y2, class: kind.filter(Boolean).join(" ")}));
    const at = 0.3 + 0.4 * (i % 2);
    svg.append(node("text", {x: 240 + 240 * at - 30, y: y1 + (y2 - y1) * at - 6}, `\u2192${pair.checks_sent} \u2190${pair.checks_received}`));
  });
  for (const [all, x] of [[locals, 0], [remotes, 480]]) for (const one of all) {
    svg.append(node("rect", {x, y: middle(all, one) - 13, width: 240, height: 26, rx: 5, class: "candidate"}));
    svg.append(node("text", {x: x + 8, y: middle(all, one) + 4}, `${one} ${kindOf(x ? told.remote : told.local, one)}`));
  }
}

// The type of the candidate at an address, as "host".
function kindOf(lines, address) {
  const found = (lines ?? []).map(line => line.split(" ")).find(w => address === (w[4].includes(":") ? `[${w[4]}]:${w[5]}` : `${w[4]}:${w[5]}`));
  return found ? found[7] : "";
}

async function countFrames() {
  if (!session) return;
  for (const stat of (await session.pc.getStats()).values())
    if (stat.type === "inbound-rtp" && stat.framesDecoded) $("frames").textContent = `${stat.framesDecoded} pictures decoded`;
}

$("say").onsubmit = e => { e.preventDefault(); say($("text").value); $("text").value = ""; };
$("connect").onclick = connect;
$("close").onclick = close;
setInterval(countFrames, 500);
connect();
