import { svg } from "./dom.js";
import { labelOf } from "./wire.js";

const HEAD = 8, LETTER = 6.1;
// Where the words of a packet of A may stand: the first place that is free.
const PARTS = [0.37, 0.56, 0.28, 0.67];

/** The arrow of one packet, which grows until the packet arrives or is lost. */
export class Arrow {
  element;
  #track;
  #line = svg("path", { class: "line" });
  #hit = svg("path", { class: "hit" });
  #head = svg("path", { class: "head" });
  #done = false;
  #labeled = false;
  #shift;

  /** `shift`: so many pixels lower, since another packet left at the same time. */
  constructor(track, shift = 0) {
    this.#track = track;
    this.#shift = shift;
    this.element = svg("g", { class: `track ${track.kind}${track.isHostile ? " hostile" : ""}` }, this.#line, this.#head, this.#hit);
  }

  get track() {
    return this.#track;
  }

  /** When it is over: the last time that is known now. */
  static endOf(track) {
    return track.stops.at(-1).at;
  }

  /** Draws it as it is at a time. `place` has x(part), y(time), and `free(x0, x1, y)`, which reserves a place for a text. */
  draw(now, place) {
    if (this.#done) return;
    const { stops, end } = this.#track, points = [];
    for (const [n, stop] of stops.entries()) {
      if (stop.at > now) {
        points.push(between(stops[n - 1], stop, now));
        break;
      }
      points.push(stop);
    }
    const at = points.map(({ x, at: time }) => [place.x(x), place.y(time) + this.#shift]);
    const path = `M${at.map(([x, y]) => `${x.toFixed(1)} ${y.toFixed(1)}`).join("L")}`;
    this.#line.setAttribute("d", path);
    this.#hit.setAttribute("d", path);
    this.#drawHead(at);
    if (!this.#labeled) this.#label(now, place);
    if (Arrow.endOf(this.#track) <= now && (end || this.#track.taken || ["server", "signal"].includes(this.#track.kind))) this.#finish(at, place);
  }

  #drawHead(at) {
    const [x, y] = at.at(-1), [px, py] = at.findLast(([ox, oy]) => ox !== x || oy !== y) ?? [x, y];
    const angle = Math.atan2(y - py, x - px), point = (...at) => at.map((it) => it.toFixed(1)).join(" ");
    const corner = (turn) => point(x - HEAD * Math.cos(angle + turn), y - HEAD * Math.sin(angle + turn));
    this.#head.setAttribute("d", `M${point(x, y)}L${corner(0.36)}L${corner(-0.36)}Z`);
  }

  /** Puts its words on the line, once it has passed the place for them, if nothing is there. */
  #label(now, place) {
    const { stops, side } = this.#track, parts = PARTS.map((it) => (side === "A" ? it : 1 - it));
    const found = parts.map((part) => this.#cross(part, now)).filter(Boolean);
    if (!found.length || (found.length < parts.length && Arrow.endOf(this.#track) > now)) return;
    this.#labeled = true;
    const words = labelOf(this.#track), half = (LETTER * words.length) / 2;
    const free = found.find(({ part, time }) => place.free(place.x(part) - half, place.x(part) + half, place.y(time) + this.#shift - 5));
    if (!free) return;
    const { part, time, a, b } = free, [x, y] = [place.x(part), place.y(time) + this.#shift];
    const slope = Math.atan2(place.y(b.at) - place.y(a.at), place.x(b.x) - place.x(a.x));
    const turn = ((Math.cos(slope) < 0 ? slope + Math.PI : slope) * 180) / Math.PI;
    const transform = `translate(${x.toFixed(1)} ${(y - 5).toFixed(1)}) rotate(${turn.toFixed(1)})`;
    this.element.append(svg("text", { transform, "text-anchor": "middle" }, words));
  }

  /** Where and when it has crossed a place, if it has. */
  #cross(part, now) {
    const { stops, end } = this.#track;
    const n = stops.findIndex((stop, i) => i > 0 && (stop.x - part) * (stops[i - 1].x - part) <= 0 && stop.x !== stops[i - 1].x);
    if (n < 1 || (end && n === stops.length - 1)) return null;
    const [a, b] = [stops[n - 1], stops[n]], time = a.at + ((part - a.x) / (b.x - a.x)) * (b.at - a.at);
    return time > now ? null : { part, time, a, b };
  }

  /** Draws what stays: where it passed, and how it ended. */
  #finish(at, place) {
    this.#done = true;
    const { stops, end, taken, side, isHostile } = this.#track, isRightward = isHostile ? stops.at(-1).x > 0.5 : side === "A";
    for (const [n, stop] of stops.entries()) {
      if (stop.lane && stop.lane.length > 1 && n > 0) this.element.append(svg("circle", { class: "hop", cx: at[n][0], cy: at[n][1], r: 2.4 }));
    }
    if (end) this.#drawEnd(at.at(-1), isRightward, end.why, place);
    else if (taken && !taken.accepted) this.#drawEnd(at.at(-1), !isRightward, "refused", place, true);
  }

  #drawEnd([x, y], isRightward, why, place, isRefused = false) {
    this.element.classList.add(isRefused ? "refused" : "ended");
    this.#head.remove();
    const s = 4, cx = isRefused ? x + (isRightward ? 9 : -9) : x;
    this.element.append(svg("path", { class: "cross", d: `M${cx - s} ${y - s}l${2 * s} ${2 * s}M${cx - s} ${y + s}l${2 * s} ${-2 * s}` }));
    if (isRefused && place.x(1) - place.x(0) < 400) return;
    const room = isRightward ? place.x(1) - cx : cx - place.x(0), whole = this.#labeled || isRefused ? why : `${labelOf(this.#track)}: ${why}`;
    const words = [whole, why, why.split(" by ")[0]].find((it) => LETTER * it.length + 20 < room) ?? "";
    const start = isRightward ? cx + 10 : cx - 10 - LETTER * words.length;
    if (!words || !place.free(start, start + LETTER * words.length, y)) return;
    const attributes = { class: "why", x: cx + (isRightward ? 10 : -10), y: y + 4, "text-anchor": isRightward ? "start" : "end" };
    this.element.append(svg("text", attributes, words));
  }
}

function between(a, b, now) {
  const part = (now - a.at) / (b.at - a.at || 1);
  return { at: now, x: a.x + (b.x - a.x) * part, lane: null };
}
