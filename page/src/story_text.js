import { text } from "./endpoint.js";

// A story has no word for the longest RTO, and its agents begin with an RTO of 3 s at most: so they agree up to here, in ms.
const EXACT = 2800;
// How agents of C, Rust, Python and JavaScript begin, where those of a story begin otherwise.
const BEGIN = ["retransmits=11", "discovered=32"];

/**
 * Writes down a session as a story of docs/SCRIPTS.md: each call and each arrival, and which path each selects. It stops where a story has no
 * word for what happens. `ice` is the library.
 */
export class StoryText {
  #ice;
  #title;
  #lines = [];
  #defined = [];
  #starts = {};
  #packets = 0;
  #clock = null;
  #end = "";

  constructor(title, ice) {
    this.#title = title;
    this.#ice = ice;
  }

  starts(side, { agent, tieBreaker, settings, world }) {
    this.#clock = world.clock;
    this.#starts[side] = `${tieBreaker} ${agent.controlling ? "controlling" : "controlled"}`;
    const words = BEGIN.map((it) => `${side}.${it}`);
    if (settings.modern) words.unshift(`${side}.profile=modern`);
    if (settings.renomination) words.push(`${side}.renomination`);
    this.#add(words.join(" "));
  }

  get #isOver() {
    if (!this.#end && this.#clock.now > EXACT) this.#stop(`what happens after ${EXACT} ms is left out`);
    return this.#end !== "";
  }

  #stop(why) {
    this.#end ||= why;
  }

  #add(words) {
    if (!this.#isOver) this.#lines.push(words);
  }

  /** An agent is called. */
  call(side, what, ...details) {
    if (what === "timeout") this.#add(`${side}@${this.#clock.now}`);
    else if (what === "poll") this.#add(`${side}?`);
    else if (what === "local") this.#local(side, ...details);
    else if (what === "candidate") this.#remote(side, ...details);
    else if (what === "invalidate") this.#stop("an interface goes, which a story cannot say");
    else this.#add(`${side}.${what}`);
  }

  #local(side, { kind, address, base }) {
    this.#add(`${side}.${kind}=${text(address)}${kind === "host" ? "" : `/${text(base)}`}`);
  }

  #remote(side, line) {
    const { ufrag, ...fields } = this.#ice.lineFields(line), plain = this.#ice.fieldsLine(fields).text;
    const name = `${side}.c${this.#defined.length}`;
    if (this.#isOver) return;
    this.#defined.push(`candidate ${name} ${plain}`);
    this.#add(name);
  }

  /** An agent sends a packet. */
  sent(side, track) {
    if (!track.message || this.#isOver) return;
    track.storyNumber = this.#packets++;
    this.#add(`${side}>`);
  }

  /** An agent gets a packet, which was sent by the other one. Others change nothing, and are left out. */
  took(side, track) {
    const { storyNumber } = track.copyOf ?? track, { at, source, local, accepted } = track.taken;
    if (storyNumber === undefined || (track.isHostile && !track.copyOf)) return;
    this.#add(`${side}<${storyNumber}@${at};from=${text(source)};to=${text(local)} = ${side} ${accepted}`);
  }

  /** The last call selected a path. */
  selected({ source, destination }) {
    if (this.#isOver) return;
    const last = this.#lines.findLastIndex((line) => /[<@]|restart/.test(line));
    this.#lines[last] += ` : selects ${text(source)} to ${text(destination)}`;
  }

  /** The file. */
  get text() {
    const head = ["# A session of the page, as a story.", this.#end ? `# It is cut: ${this.#end}.` : "", ...this.#defined].filter(Boolean);
    const begin = [`story ${this.#title.toLowerCase()}`, `world ${this.#starts.A} ${this.#starts.B}`, "asserts selects"];
    return [...head, "", ...begin, ...this.#lines, ""].join("\n");
  }
}
