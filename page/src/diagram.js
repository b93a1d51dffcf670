import { Arrow } from "./arrows.js";
import { $, svg, timeText } from "./dom.js";
import { NATS } from "./nat.js";
import { BREAK, Scale } from "./scale.js";
import { LANES } from "./session.js";

const TOP = 26, ROW = 13;
const LAYERS = ["grid", "lanes", "tracks", "bars", "breaks", "flags"];
const SHORT = { "TURN relay": "relay", "STUN server": "STUN", mobile: "mobile" };
const DEEDS = {
  cutAB: ["A → B mended", "A → B cut"], cutBA: ["B → A mended", "B → A cut"], cutRelay: ["relay mended", "relay cut"],
  wifi: ["A's wifi off", "A's wifi on"], restart: "ICE restart", flood: "flood begins",
};

/** The sequence diagram: time goes down, and it grows with the session. */
export class Diagram {
  chosen = null;
  #canvas = $("canvas");
  #box = $("diagram");
  #arrows = new Map(); // by track
  #layers;
  #taken = new Map(); // where texts are, by row
  #follows = true;
  #bars = { A: [], B: [] };
  #drawnEvents = 0;
  #flagRows = []; // those left of A, where times would be too

  constructor() {
    this.#box.addEventListener("scroll", () => {
      this.#follows = this.#box.scrollTop + this.#box.clientHeight >= this.#box.scrollHeight - 24;
      this.draw();
    }, { passive: true });
    new ResizeObserver(() => this.redraw()).observe(this.#box);
  }

  /** Shows a new session. `perMs`: pixels for a millisecond. */
  show(session, perMs) {
    this.session = session;
    this.scale = new Scale(perMs);
    this.y = 0;
    this.chosen = null;
    this.#follows = true;
    this.redraw();
  }

  zoom(perMs) {
    const time = this.scale.time(this.y);
    this.scale.zoom(perMs);
    this.y = this.scale.y(time);
    this.#follows = true;
    this.redraw();
  }

  /** Lets the session run for so many pixels. */
  advance(pixels) {
    const { session, scale } = this;
    this.y += pixels;
    for (;;) {
      this.#cutWait();
      const limit = Math.floor(scale.time(this.y));
      if (session.next > limit) return session.runTo(Math.max(limit, session.now));
      session.runTo(session.next);
    }
  }

  /** Lets the session run to its next event: what is in flight moves on. */
  step() {
    const { session } = this;
    this.#cutWait();
    if (session.next === Infinity) return;
    session.runTo(session.next);
    this.y = Math.max(this.y, this.scale.y(session.now));
  }

  /** Lets the session run to a time. */
  runTo(time) {
    while (this.session.next <= time) this.step();
    this.session.runTo(time);
    this.y = Math.max(this.y, this.scale.y(time));
  }

  #cutWait() {
    const { session, scale } = this;
    let busy = session.now;
    for (const track of session.tracks.slice(-40)) busy = Math.max(busy, Arrow.endOf(track));
    for (const it of session.events.slice(-3)) busy = Math.max(busy, it.at);
    if (session.next !== Infinity) scale.wait(Math.min(busy, session.next), session.next);
  }

  // ---- drawing

  /** Draws all anew: the size or the scale changed. */
  redraw() {
    if (!this.session) return;
    this.#arrows.clear();
    this.#taken.clear();
    this.#bars = { A: [], B: [] };
    this.#drawnEvents = 0;
    this.#flagRows = [];
    const width = this.#box.clientWidth;
    this.width = width;
    this.isNarrow = width < 520;
    this.left = this.isNarrow ? 46 : width < 760 ? 106 : 132;
    this.#layers = Object.fromEntries(LAYERS.map((name) => [name, svg("g", { class: `layer-${name}` })]));
    this.#canvas.replaceChildren(svg("g", { id: "moving" }, ...Object.values(this.#layers)));
    this.#drawLanes();
    this.#drawHeads();
    this.draw();
  }

  x(part) {
    return this.left + (this.width - 2 * this.left) * part;
  }

  place(time) {
    return TOP + this.scale.y(time);
  }

  /** Whether a text may stand there, from x0 to x1: then its place is taken. */
  free(x0, x1, y) {
    const near = [-1, 0, 1].flatMap((row) => this.#taken.get(Math.floor(y / ROW) + row) ?? []);
    if (near.some((it) => Math.abs(it.y - y) < ROW && it.x0 < x1 + 4 && x0 < it.x1 + 4)) return false;
    const row = Math.floor(y / ROW);
    this.#taken.set(row, [...(this.#taken.get(row) ?? []), { x0, x1, y }]);
    return true;
  }

  /** Draws what changed, and only what can be seen. */
  draw() {
    const { session } = this, box = this.#box, height = box.clientHeight;
    if (!session || !height) return;
    const bottom = TOP + this.y, total = Math.max(height, bottom + 44);
    $("spacer").style.height = `${total - height}px`;
    if (this.#follows) box.scrollTop = total;
    const top = box.scrollTop, now = this.scale.time(this.y);
    this.#canvas.firstChild.setAttribute("transform", `translate(0 ${-top})`);
    this.#drawTracks(now, top - 30, top + height + 30);
    this.#drawGrid(top, height, bottom);
    this.#drawEvents(now);
    this.#drawBars(bottom);
  }

  #drawTracks(now, top, bottom) {
    const place = { x: (part) => this.x(part), y: (time) => this.place(time), free: (...box) => this.free(...box) };
    for (const track of this.session.tracks) {
      const isSeen = track.sent <= now && this.place(track.sent) < bottom && this.place(Math.min(now, track.stops.at(-1).at)) > top;
      let arrow = this.#arrows.get(track);
      if (!isSeen) {
        arrow?.element.remove();
        if (arrow) arrow.isOut = true;
        continue;
      }
      if (!arrow) {
        arrow = new Arrow(track, this.#shiftOf(track));
        arrow.element.track = track;
        this.#arrows.set(track, arrow);
        arrow.isOut = true;
      }
      if (arrow.isOut) this.#layers.tracks.append(arrow.element);
      arrow.isOut = false;
      arrow.draw(now, place);
    }
  }

  /** How much lower a packet is drawn than its time says, in pixels: packets that leave together would be one line. */
  #shiftOf(track) {
    if (!track.contents || track.isHostile) return 0;
    const together = this.session.tracks.filter((it) => it.contents && !it.isHostile && it.side === track.side && it.sent === track.sent);
    return Math.min(3, together.indexOf(track)) * 4;
  }

  /** Draws all of it, wherever it is, for a picture. Returns its size. */
  whole() {
    const bottom = TOP + this.y, moving = this.#canvas.firstChild;
    this.#drawTracks(this.scale.time(this.y), -Infinity, Infinity);
    this.#drawGrid(0, bottom, bottom);
    moving.removeAttribute("transform");
    return { width: this.width, height: Math.ceil(bottom + 30) };
  }

  /** The packet whose arrow is nearest to a point of the window, or null. */
  trackAt(element) {
    return element.closest?.(".track")?.track ?? null;
  }

  /** Chooses a packet: the others become pale. */
  choose(track) {
    this.chosen = track;
    this.#canvas.classList.toggle("chosen", Boolean(track));
    for (const [other, { element }] of this.#arrows) {
      element.classList.toggle("is-chosen", other === track);
      element.classList.toggle("is-related", Boolean(track) && other.transaction !== undefined && other.transaction === track.transaction);
    }
  }

  /** Scrolls to a packet. */
  reveal(track) {
    const y = this.place(track.sent), box = this.#box;
    if (y < box.scrollTop + 30 || y > box.scrollTop + box.clientHeight - 90) {
      this.#follows = false;
      box.scrollTop = y - box.clientHeight / 2;
    }
    this.draw();
    this.choose(track);
  }

  // ---- lanes and their heads

  get lanes() {
    const { settings } = this.session, found = [];
    for (const [side, x] of [["A", 0.2], ["B", 0.8]]) {
      const nat = settings[`nat${side}`];
      if (nat !== "none") found.push({ x, name: LANES[side], more: NATS[nat].short });
    }
    if (settings.mobileA) found.push({ x: 0.32, name: "mobile", more: "carrier" });
    const isRelay = settings.turnA || settings.turnB;
    found.push({ x: 0.5, name: isRelay ? "TURN relay" : "STUN server", more: this.session.server.address.address, isServer: true });
    return found.sort((a, b) => a.x - b.x);
  }

  #drawLanes() {
    for (const { x, isServer } of this.lanes) {
      if (!isServer) this.#layers.lanes.append(svg("rect", { class: "router", x: this.x(x) - 8, y: 0, width: 16, height: 1e6 }));
      this.#layers.lanes.append(svg("line", { class: "lane", x1: this.x(x), x2: this.x(x), y1: 0, y2: 1e6 }));
    }
    for (const x of [0, 1]) this.#layers.lanes.append(svg("line", { class: "lane", x1: this.x(x), x2: this.x(x), y1: 0, y2: 1e6 }));
  }

  #drawHeads() {
    const texts = [], say = (x, y, words, name) => texts.push(svg("text", { x: this.x(x), y, "text-anchor": "middle", class: name }, words));
    for (const [side, x] of [["A", 0], ["B", 1]]) {
      say(x, 22, side, `name ${side}`);
      if (!this.isNarrow) say(x, 38, this.session.interfaces[side].at(0).ip + (this.session.interfaces[side].length > 1 ? " …" : ""), "");
    }
    const apart = (x) => Math.min(...this.lanes.filter((it) => it.x !== x).map((it) => Math.abs(this.x(it.x) - this.x(x))));
    for (const [n, { x, name, more }] of this.lanes.entries()) {
      const high = this.lanes.some((it) => it.name === "mobile") && this.isNarrow && n % 2 ? 10 : 0;
      say(x, 20 + high, this.isNarrow ? SHORT[name] ?? "NAT" : name, "lane-name");
      if (!this.isNarrow && apart(x) > 95) say(x, 36, more, "");
    }
    $("heads").replaceChildren(...texts, svg("g", { id: "pathMark" }));
    this.drawPath();
  }

  /** Draws the selected path over the heads. */
  drawPath() {
    const { A } = this.session.endpoints, path = A.agent.nominatedPair, mark = $("pathMark");
    if (!mark) return;
    if (!path) return mark.replaceChildren();
    const isRelayed = [path.source, path.destination].some(({ address }) => address === this.session.server.address.address);
    const words = `${isRelayed ? "over the relay" : "direct"}${path.rtt === null ? "" : `, ${Math.round(path.rtt)} ms round trip`}`;
    const middle = this.x(0.5), half = words.length * 3.4 + 10, y = 51;
    mark.replaceChildren(svg("path", { class: "path-line", d: `M${this.x(0)} ${y}H${middle - half}M${middle + half} ${y}H${this.x(1)}` }),
      svg("text", { class: "path-text", x: middle, y: y + 4, "text-anchor": "middle" }, words));
  }

  // ---- time, states and events

  #drawGrid(top, height, bottom) {
    const { grid } = this.#layers, { scale } = this, step = [10, 20, 50, 100, 200, 500, 1000].find((it) => it * scale.perMs > 44) ?? 2000;
    const lines = [];
    const cutRows = scale.cuts.map((it) => TOP + it.y + BREAK / 2 + 4);
    const inCut = (time) => scale.cuts.some((it) => time > it.from && time < it.to);
    let last = -100;
    for (let time = Math.max(0, Math.floor(scale.time(top - TOP) / step) * step); ; time += step) {
      const cut = scale.cuts.find((it) => time > it.from && time < it.to);
      if (cut) time = Math.ceil(cut.to / step) * step;
      const y = this.place(time);
      if (y > Math.min(bottom, top + height)) break;
      if (inCut(time) || y - last < 30) continue;
      last = y;
      const words = time < 1000 ? `${time}` : `${+(time / 1000).toFixed(3)} s`;
      lines.push(svg("line", { class: "grid", x1: 0, x2: this.width, y1: y, y2: y }));
      if (![...this.#flagRows, ...cutRows].some((row) => Math.abs(row - y + 3) < 12)) lines.push(svg("text", { x: 8, y: y - 3 }, words));
    }
    const breaks = scale.cuts.filter(({ y }) => y + BREAK > top - 60 && y < top + height);
    this.#layers.breaks.replaceChildren(...breaks.flatMap(({ from, to, y }) => this.#breakAt(TOP + y + BREAK / 2, to - from)));
    lines.push(svg("line", { class: "now", x1: 0, x2: this.width, y1: bottom, y2: bottom }));
    grid.replaceChildren(...lines);
  }

  #breakAt(y, wait) {
    const marks = [0, ...this.lanes.map((it) => it.x), 1].map((part) => {
      const x = this.x(part);
      return svg("path", { class: "break", d: `M${x - 9} ${y + 1}l18 -7v6l-18 7z` });
    });
    return [...marks, svg("text", { x: 8, y: y + 4, "font-style": "italic" }, `${timeText(wait)} cut`)];
  }

  #drawEvents(now) {
    const { events } = this.session, { flags, bars } = this.#layers;
    for (; this.#drawnEvents < events.length && events[this.#drawnEvents].at <= now; this.#drawnEvents++) {
      const it = events[this.#drawnEvents], y = this.place(it.at);
      if (it.what === "action") flags.append(...this.#deed(it.action, y));
      if (it.what === "iceConnectionStateChange") {
        const bar = svg("rect", { class: `bar ${it.event.state}`, x: this.x(it.side === "A" ? 0 : 1) - 4, y, width: 8, height: 2 });
        bars.append(bar);
        this.#bars[it.side].push({ bar, y });
        this.#flag(it.side, y, it.event.state);
      }
      if (it.what === "nominatedSend") this.#flag(it.side, y, "selects");
    }
  }

  #flag(side, y, words) {
    const x = this.x(side === "A" ? 0 : 1), [x0, x1] = side === "A" ? [0, x] : [x, this.width];
    if (words === "selects") this.#layers.flags.append(svg("circle", { class: "selects", cx: x, cy: y, r: 5 }));
    if (this.isNarrow) return;
    let row = y + 4;
    while (!this.free(x0, x1, row)) row += ROW;
    if (side === "A") this.#flagRows.push(row);
    const attributes = side === "A" ? { x: x - 12, "text-anchor": "end" } : { x: x + 12, "text-anchor": "start" };
    this.#layers.flags.append(svg("text", { class: "flag", y: row, ...attributes }, words));
  }

  #deed(action, y) {
    const told = DEEDS[action.do];
    if (!told) return [];
    const words = typeof told === "string" ? told : told[action.value];
    let row = y - 5;
    for (let tries = 0; tries < 2 && !this.free(this.x(0.5) - 40, this.x(0.5) + 40, row); tries++) row += ROW;
    const line = svg("line", { class: "deed", x1: this.x(0), x2: this.x(1), y1: y, y2: y });
    return [line, svg("text", { class: "deed", x: this.x(0.5), y: row, "text-anchor": "middle" }, words)];
  }

  #drawBars(bottom) {
    for (const bars of Object.values(this.#bars)) {
      for (const [n, { bar, y }] of bars.entries()) bar.setAttribute("height", Math.max(2, (bars[n + 1]?.y ?? bottom) - y));
    }
  }
}
