// IP addresses: the module has them as bytes, and a program as text. The module's own reader and writer of candidates convert them.
import { STRUCTS } from "./abi.js";
import { CODE, done } from "./errors.js";
import { textOf } from "./memory.js";
import { small } from "./numbers.js";

const MOST = 4096; // conversions that are kept: programs have few addresses
const FIELDS = Object.fromEntries(Object.entries(STRUCTS).map(([kind, [, ...fields]]) =>
  [kind, Object.fromEntries(fields.map(([name, offset]) => [name, offset]))]));
const AT = FIELDS.Address;
const IP_LENGTH = 17; // the family, then the bytes
const encoder = new TextEncoder();
const READ = new Map(), WRITTEN = new Map();

function kept(map, key, make) {
  let found = map.get(key);
  if (found !== undefined) return found;
  found = make();
  if (map.size >= MOST) map.clear();
  map.set(key, found);
  return found;
}

/** Writes a text of ASCII to a place, and returns the arguments for it. */
function put(memory, place, text) {
  const { written } = encoder.encodeInto(text, memory.bytes.subarray(place.at, place.at + place.size));
  return [place.arg, BigInt(written)];
}

/** The family and the bytes of an address. A zone, as in "fe80::1%eth0", is left out: `scope` is its number. */
function bytesOfIp(memory, text) {
  const ip = typeof text === "string" ? text.replace(/%.*$/, "") : "";
  if (!/^[0-9A-Fa-f:.]{1,45}$/.test(ip)) throw new TypeError(`no IP address: ${String(text)}`);
  const { ip: places } = memory, { line, read, length } = places;
  const given = put(memory, places.text, `candidate:0 1 udp 0 ${ip} 0 typ host`);
  const code = memory.call("is_ice_line_fields", ...given, line.arg, BigInt(line.size), length.arg, read.arg);
  if (code === CODE.BadCandidate) throw new TypeError(`no IP address: ${text}`);
  done(code);
  const at = read.at + FIELDS.Fields.address;
  return memory.bytes.slice(at, at + IP_LENGTH);
}

/** The text of the address at this place, as the module writes it in a candidate. */
function textOfIp(memory, from) {
  const { given, text, line, length, read } = memory.ip, { bytes, view } = memory;
  memory.cleared(given);
  bytes.copyWithin(given.at + FIELDS.Fields.address, from, from + IP_LENGTH);
  view.setUint16(given.at + FIELDS.Fields.component, 1, true);
  const foundation = put(memory, text, "0");
  done(memory.call("is_ice_fields_line", given.arg, ...foundation, line.arg, BigInt(line.size), length.arg, read.arg));
  const end = line.at + Number(memory.word(length.at)) - " 0 typ host".length;
  return textOf(memory.bytes.subarray(line.at + "candidate:0 1 udp 0 ".length, end));
}

/** An address as text: "192.0.2.1:5000" or "[2001:db8::1]:5000". */
export const addressText = ({ address, port }) => (address.includes(":") ? `[${address}]:${port}` : `${address}:${port}`);

/** Writes { address, port, flow, scope }, of which the last two are 0 by default. */
export function putAddress(memory, to, { address, port, flow = 0, scope = 0 }) {
  memory.bytes.set(kept(READ, address, () => bytesOfIp(memory, address)), to);
  memory.view.setUint16(to + AT.port, small(port, "a port", 16), true);
  memory.view.setUint32(to + AT.flow, small(flow, "flow information", 32), true);
  memory.view.setUint32(to + AT.scope, small(scope, "a scope", 32), true);
}

/** Reads an address: null if it has no family. `flow` and `scope` are there only if they are not 0. */
export function addressAt(memory, from) {
  const { view } = memory, family = view.getUint8(from + AT.family);
  if (family === 0) return null;
  const port = view.getUint16(from + AT.port, true);
  const flow = view.getUint32(from + AT.flow, true), scope = view.getUint32(from + AT.scope, true);
  const found = { address: ipAt(memory, from, family), port };
  if (flow) found.flow = flow;
  if (scope) found.scope = scope;
  return found;
}

function ipAt(memory, from, family) {
  const { view } = memory, at = from + AT.bytes;
  if (family === 4) return kept(WRITTEN, view.getUint32(at), () => textOfIp(memory, from));
  const words = Array.from({ length: 8 }, (_, i) => view.getUint16(at + 2 * i));
  return kept(WRITTEN, String.fromCharCode(...words), () => textOfIp(memory, from));
}
