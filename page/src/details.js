import { html, timeText } from "./dom.js";
import { text } from "./endpoint.js";
import { labelOf } from "./wire.js";

const NAMES = {
  check: "Binding request", nomination: "Binding request with USE-CANDIDATE", response: "Binding success response", failure: "Binding error response",
  media: "Media", server: "To or from the server", signal: "Signaling",
};
const capital = (words) => words[0].toUpperCase() + words.slice(1);

function titleOf(track) {
  const { kind, contents, isHostile } = track;
  const name = isHostile && kind === "media" ? "no STUN message" : NAMES[kind];
  return `${isHostile ? `${capital(isHostile)}: ` : ""}${name}${contents ? `, ${contents.length} bytes` : `: ${labelOf(track)}`}`;
}

function pathOf({ source, destination, wire }) {
  const seen = wire && text(wire.source) !== text(source) ? `, on the way from ${text(wire.source)}` : "";
  return `${text(source)} → ${text(destination)}${seen}`;
}

/** What an attribute says, if the message has it. */
function attributesOf({ priority, iceControlling, iceControlled, mappedAddress, error }) {
  const role = iceControlling !== null ? "ICE-CONTROLLING" : iceControlled !== null ? "ICE-CONTROLLED" : null;
  return [
    role && `PRIORITY ${priority}, ${role}`, mappedAddress && `XOR-MAPPED-ADDRESS ${text(mappedAddress)}`,
    error && `ERROR-CODE ${error.code} ${error.reason}`,
  ].filter(Boolean);
}

/** What is known of a packet, in lines: first its name. */
export function linesOf(track) {
  const { side, sent, source, message, isHostile, taken, end, stops } = track;
  const passed = [...new Set(stops.filter((it) => it.lane?.length > 1).map((it) => it.lane))];
  const lines = [titleOf(track)];
  if (source) lines.push(pathOf(track));
  if (message) lines.push(...attributesOf(message));
  lines.push(`Sent by ${isHostile ? "an attacker" : side} at ${timeText(sent)}${passed.length ? `, past ${passed.join(", ")}` : ""}`);
  if (end) lines.push(`Does not arrive: ${end.why}`);
  else if (taken) lines.push(`${taken.accepted ? "Accepted" : "Refused"} at ${timeText(taken.at)}`);
  return lines;
}

/** The line below the diagram for the chosen packet. `deed` is called with what the viewer does to it. */
export function detailsOf(track, deed) {
  const [first, ...rest] = linesOf(track);
  const isCheck = ["check", "nomination"].includes(track.kind) && track.wire && !track.isHostile;
  const deeds = isCheck ? { forge: "Forge it", replay: "Replay it" } : {};
  const buttons = Object.entries(deeds).map(([name, label]) => html("button", { type: "button", onclick: () => deed(name) }, label));
  const number = track.transaction ? `#${track.transaction} ` : "";
  return [html("b", {}, number, first), ...rest.map((line) => html("span", {}, line)), ...buttons];
}
