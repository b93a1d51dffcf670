import { $, html } from "./dom.js";
import { NATS } from "./nat.js";
import { RANGES } from "./settings.js";

const UNITS = { delay: " ms", jitter: " ms", loss: " %", signaling: " ms" };
const LABELS = { delay: "Delay", jitter: "Jitter", loss: "Loss", signaling: "Signaling" };
/** These act on the session that runs; the others begin a new one. */
export const LIVE = ["delay", "jitter", "loss"];
const HINT = "The seed makes passwords, transaction IDs, jitter and loss, so a link repeats a session to the packet. "
  + "A program takes them from the system.";
const CUTS = { cutAB: "Cut A → B", cutBA: "Cut B → A", cutRelay: "Cut the relay" };

/** The forms of what the viewer sets. `change(name, value)` is called for settings, `deed(name, value)` for cuts. */
export class Controls {
  #fields = {};
  #change;

  constructor(change, deed) {
    this.#change = change;
    for (const side of ["A", "B"]) this.#side(side);
    for (const name of Object.keys(LABELS)) $("network").append(this.#range(name));
    $("network").append(this.#cuts(deed));
    $("agents").append(
      this.#choice("profile", "Profile", { modern: "modern", original: "as the original" }), this.#tick("renomination", "Renomination"),
      this.#number("seed", "Seed"),
      html("p", { className: "hint" }, HINT));
  }

  #side(side) {
    const nats = Object.fromEntries(Object.entries(NATS).map(([name, { label }]) => [name, label]));
    const roles = { controlling: "controlling", controlled: "controlled" };
    $(`side${side}`).append(
      this.#choice(`nat${side}`, "NAT", nats), this.#choice(`role${side}`, "Role", roles), this.#tick(`turn${side}`, "A TURN relay"));
    if (side === "A") $("sideA").append(this.#tick("mobileA", "Mobile too, behind its carrier's NAT"));
    $(`side${side}`).append(this.#range(`dead${side}`, "Dead ends"));
  }

  #choice(name, label, choices) {
    const select = html("select", { id: name, name }, ...Object.entries(choices).map(([value, words]) => html("option", { value }, words)));
    select.onchange = () => this.#change(name, select.value);
    this.#fields[name] = (value) => (select.value = value);
    return html("label", { className: "row wide" }, label, select);
  }

  #tick(name, label) {
    const box = html("input", { type: "checkbox", id: name, name });
    box.onchange = () => this.#change(name, box.checked);
    this.#fields[name] = (value) => (box.checked = value);
    return html("label", { className: "tick" }, box, label);
  }

  #range(name, label = LABELS[name]) {
    const [min, max] = RANGES[name], output = html("output"), input = html("input", { type: "range", id: name, name, min, max });
    const show = () => {
      output.textContent = `${input.value}${UNITS[name] ?? ""}`;
      input.setAttribute("aria-valuetext", output.textContent);
    };
    input.oninput = show;
    input.onchange = () => this.#change(name, Number(input.value));
    this.#fields[name] = (value) => {
      input.value = value;
      show();
    };
    return html("label", { className: "row" }, label, input, output);
  }

  #number(name, label) {
    const [min, max] = RANGES[name], input = html("input", { type: "number", id: name, name, min, max });
    input.onchange = () => {
      const value = Math.min(max, Math.max(min, Math.round(Number(input.value)) || min));
      input.value = value;
      this.#change(name, value);
    };
    this.#fields[name] = (value) => (input.value = value);
    return html("label", { className: "row wide" }, label, input);
  }

  #cuts(deed) {
    const buttons = Object.entries(CUTS).map(([name, label]) => this.#toggle(name, label, deed));
    return html("div", { className: "cuts", role: "group", "aria-label": "Cuts" }, ...buttons, this.#toggle("wifi", "A's wifi off", deed, true));
  }

  /** A button that is pressed while the path is cut, or the interface off. */
  #toggle(name, label, deed, isOffWhenPressed = false) {
    const button = html("button", { type: "button", id: name, "aria-pressed": "false" }, label);
    button.onclick = () => deed(name, Number((button.getAttribute("aria-pressed") !== "true") !== isOffWhenPressed));
    this.#fields[name] = (value) => button.setAttribute("aria-pressed", String(Boolean(value) !== isOffWhenPressed));
    return button;
  }

  /** Shows the values of a session. */
  show(session) {
    for (const [name, value] of Object.entries(session.settings)) this.#fields[name]?.(value);
    for (const [name, value] of Object.entries(session.cuts)) this.#fields[name](value);
    this.#fields.wifi(session.interfaces.A.find((it) => it.name === "wifi").isOn);
  }
}
