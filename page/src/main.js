import * as ice from "../../js/src/index.js";
import { Controls, LIVE } from "./controls.js";
import { detailsOf, linesOf } from "./details.js";
import { Diagram } from "./diagram.js";
import { $, html, save, timeText } from "./dom.js";
import { Log, outcome, showPairs } from "./panels.js";
import { captureOf } from "./pcapng.js";
import { pictureOf } from "./picture.js";
import { Session } from "./session.js";
import { DEFAULTS, fromFragment, toFragment } from "./settings.js";
import { STORIES } from "./stories.js";
import { StoryText } from "./story_text.js";
import { WASM } from "./wasm.js";

const OWN_UNTIL = 2500; // ms: a session with settings of the viewer's own pauses then
const FAST = 2200; // pixels a second, at most
const PANELS_EVERY = 120; // ms

/** The page: the session that runs, and what the viewer does. */
class Page {
  #diagram = new Diagram();
  #log = new Log();
  #controls = new Controls((name, value) => this.#set(name, value), (name, value) => this.#do(name, value));
  #isPlaying = true;
  #until = Infinity;
  #panelsAt = 0;
  #lastFrame = 0;

  start() {
    for (const story of STORIES) {
      const properties = { type: "button", dataset: { story: story.id }, onclick: () => this.#tell(story) };
      $("stories").append(html("button", properties, story.title));
    }
    if (innerWidth < 700) for (const it of ["sideCardA", "sideCardB", "networkCard"]) $(it).open = false;
    this.#listen();
    this.open(location.hash);
    requestAnimationFrame((at) => this.#frame(at));
  }

  // ---- sessions

  /** Opens what a link names. */
  open(fragment) {
    const { story, settings, actions, view } = fromFragment(fragment, STORIES);
    this.#begin(story, settings, actions, view);
    const at = Number(view.at);
    if (at > 0) this.runTo(Math.min(at, 600_000));
    if (view.pause === "1") this.#play(false);
  }

  #tell(story) {
    this.#begin(story, { ...DEFAULTS, ...story.settings }, story.actions);
  }

  #begin(story, settings, actions, { speed = story.speed, zoom = 0 } = {}) {
    this.session?.close();
    Object.assign(this, { story, settings, text: new StoryText(story.title, ice) });
    this.session = new Session(settings, actions, ice, this.text);
    const isOwn = toFragment({ story, settings, actions }) !== `story=${story.id}`;
    this.#until = isOwn ? Math.max(story.until, OWN_UNTIL) : story.until;
    $("speed").value = speed;
    $("zoom").value = zoom;
    for (const it of $("stories").children) it.setAttribute("aria-current", String(it.dataset.story === story.id));
    document.querySelector(`[data-story="${story.id}"]`).scrollIntoView({ inline: "center", block: "nearest" });
    $("says").textContent = isOwn ? `Your own setting, begun from “${story.title}”.` : story.says;
    $("details").replaceChildren();
    this.#log.clear();
    this.#diagram.show(this.session, this.#perMs);
    this.#slide();
    this.#play(true);
    this.#show();
  }

  get #perMs() {
    return Math.min(4, Math.max(0.2, 54 / this.session.settings.delay)) * 2 ** Number($("zoom").value);
  }

  #set(name, value) {
    if (LIVE.includes(name)) return this.#do(name, value);
    const settings = { ...this.session.settings, [name]: value }; // with the delay, jitter and loss of now
    this.#begin(this.story, settings, this.story.actions, { speed: $("speed").value, zoom: $("zoom").value });
  }

  #do(name, value) {
    this.session.attacker.chosen = this.#diagram.chosen?.number ?? null;
    this.session.act(name, value);
    this.#until = this.session.now + 2500;
    this.#play(true);
    this.#show();
  }

  // ---- playing

  #play(is) {
    this.#isPlaying = is;
    $("play").textContent = is ? "Pause" : "Play";
    if (is && this.session.now >= this.#until) this.#until = Infinity;
  }

  #frame(at) {
    const passed = Math.min(at - this.#lastFrame, 100);
    const isCalm = matchMedia("(prefers-reduced-motion: reduce)").matches && at - this.#lastFrame < 400;
    if (!isCalm) {
      this.#lastFrame = at;
      if (this.#isPlaying) this.#advance(passed);
    }
    requestAnimationFrame((next) => this.#frame(next));
  }

  #advance(passed) {
    const pixels = Math.min(FAST, this.#diagram.scale.perMs * 1000 * 2 ** Number($("speed").value));
    this.#diagram.advance((pixels * passed) / 1000);
    this.#diagram.draw();
    $("clock").textContent = timeText(this.session.now);
    if (this.session.now >= this.#until) {
      this.#play(false);
      this.#show();
    } else if (performance.now() - this.#panelsAt > PANELS_EVERY) this.#show();
  }

  /** Lets the session run to a time at once. */
  runTo(time) {
    this.#diagram.runTo(time);
    this.#diagram.draw();
    this.#show();
  }

  #show() {
    this.#panelsAt = performance.now();
    const { session } = this;
    for (const side of ["A", "B"]) showPairs(side, session.endpoints[side].agent);
    this.#log.show(session.events);
    this.#controls.show(session);
    this.#diagram.drawPath();
    $("clock").textContent = timeText(session.now);
    const words = outcome(session);
    if ($("status").textContent !== words) $("status").textContent = words;
    $("canvas").setAttribute("aria-label", `Sequence diagram of ${session.tracks.length} packets. ${words}`);
  }

  #slide() {
    const speed = Number($("speed").value), zoom = Math.round(100 * 2 ** Number($("zoom").value));
    const words = speed < 0 ? `1/${2 ** -speed}` : `${2 ** speed}×`;
    $("speed").nextElementSibling.textContent = words;
    $("speed").setAttribute("aria-valuetext", `${words} of real time`);
    $("zoom").nextElementSibling.textContent = `${zoom} %`;
    $("zoom").setAttribute("aria-valuetext", `${zoom} %`);
  }

  // ---- what the viewer does

  #listen() {
    $("play").onclick = () => this.#play(!this.#isPlaying);
    $("step").onclick = () => this.#step();
    $("again").onclick = () => this.#begin(this.story, this.settings, this.session.allActions, { speed: $("speed").value, zoom: $("zoom").value });
    $("speed").oninput = () => this.#slide();
    $("zoom").oninput = () => this.#zoom(0);
    for (const name of ["restart", "say", "forge", "replay", "flood"]) $(name).onclick = () => this.#do(name);
    $("link").onclick = () => this.#copyLink();
    $("savePcap").onclick = () => this.#save("pcapng", "application/octet-stream", captureOf(this.session));
    $("saveStory").onclick = () => this.#save("story.txt", "text/plain", this.text.text);
    $("savePicture").onclick = () => {
      this.#save("svg", "image/svg+xml", pictureOf(this.#diagram, this.story.title));
      this.#diagram.draw();
    };
    window.addEventListener("hashchange", () => this.open(location.hash));
    this.#listenToDiagram();
  }

  #listenToDiagram() {
    const box = $("diagram"), tip = $("tip");
    box.addEventListener("pointermove", (event) => {
      const track = this.#diagram.trackAt(event.target);
      tip.hidden = !track || event.pointerType === "touch";
      if (tip.hidden) return;
      tip.replaceChildren(...linesOf(track).map((line, n) => html(n ? "div" : "strong", {}, line)));
      const frame = box.getBoundingClientRect();
      tip.style.left = `${Math.max(4, Math.min(event.clientX - frame.left + 14, frame.width - tip.offsetWidth - 14))}px`;
      tip.style.top = `${event.clientY - frame.top + box.scrollTop + 18}px`;
    });
    box.addEventListener("pointerleave", () => (tip.hidden = true));
    box.addEventListener("click", (event) => this.#choose(this.#diagram.trackAt(event.target)));
    box.addEventListener("keydown", (event) => this.#key(event));
  }

  #key(event) {
    if (event.ctrlKey || event.metaKey || event.altKey || event.target !== $("diagram")) return;
    const deeds = {
      " ": () => this.#play(!this.#isPlaying), ".": () => this.#step(), ArrowDown: () => this.#move(1), ArrowUp: () => this.#move(-1),
      "+": () => this.#zoom(0.5), "-": () => this.#zoom(-0.5), Escape: () => this.#choose(null),
    };
    if (!deeds[event.key]) return;
    event.preventDefault();
    deeds[event.key]();
  }

  #step() {
    this.#play(false);
    this.#diagram.step();
    this.#diagram.draw();
    this.#show();
  }

  #zoom(by) {
    $("zoom").value = Number($("zoom").value) + by;
    this.#diagram.zoom(this.#perMs);
    this.#slide();
  }

  /** Chooses the next packet of an agent, or the one before. */
  #move(by) {
    const tracks = this.session.tracks.filter((it) => it.contents && it.sent <= this.session.now);
    const now = tracks.indexOf(this.#diagram.chosen), next = now < 0 ? (by > 0 ? 0 : tracks.length - 1) : now + by;
    if (!tracks[next]) return;
    this.#play(false);
    this.#choose(tracks[next]);
    this.#diagram.reveal(tracks[next]);
  }

  #choose(track) {
    this.#diagram.choose(track);
    $("details").replaceChildren(...(track ? detailsOf(track, (name) => this.#do(name)) : []));
  }

  get #fragment() {
    return toFragment({ story: this.story, settings: this.settings, actions: this.session.allActions });
  }

  async #copyLink() {
    history.replaceState(null, "", `#${this.#fragment}`);
    const isCopied = await navigator.clipboard?.writeText(location.href).then(() => true, () => false);
    $("link").textContent = isCopied ? "Copied" : "In the address bar";
    setTimeout(() => ($("link").textContent = "Copy link"), 1800);
  }

  #save(ending, type, contents) {
    save(`${this.story.id}-${this.settings.seed}.${ending}`, type, contents);
    $("saveMenu").open = false;
  }
}

try {
  await ice.init(await WASM.module());
  $("build").textContent = `Module: ${WASM.size} bytes, SHA-256 ${WASM.hash}.`;
  globalThis.page = new Page();
  globalThis.page.start();
} catch (why) {
  const words = `The agents did not start: ${why.message}. The page needs a browser with WebAssembly and DecompressionStream.`;
  document.querySelector("main").replaceChildren(html("p", { className: "failed" }, words));
  throw why;
}
