import { labelOf } from "./wire.js";

// Block types and options of pcapng (draft-ietf-opsawg-pcapng), and the link type of packets that begin with their IP header.
const SECTION = 0x0a0d0d0a, INTERFACE = 1, PACKET = 6, RAW = 101;
const COMMENT = 1, NAME = 2, APPLICATION = 4, RESOLUTION = 9, FLAGS = 2, INBOUND = 1, OUTBOUND = 2;
const UDP = 17, HOPS = 64, MICROSECONDS = 6;

/** Numbers as bytes: [size, value] each. */
function bytesOf(parts, isLittle) {
  const view = new DataView(new ArrayBuffer(parts.reduce((sum, [size]) => sum + size, 0)));
  let at = 0;
  for (const [size, value] of parts) {
    if (size === 1) view.setUint8(at, value);
    else if (size === 2) view.setUint16(at, value, isLittle);
    else view.setUint32(at, value, isLittle);
    at += size;
  }
  return new Uint8Array(view.buffer);
}

function joined(...parts) {
  const all = new Uint8Array(parts.reduce((sum, it) => sum + it.length, 0));
  parts.reduce((at, it) => (all.set(it, at), at + it.length), 0);
  return all;
}

const padded = (bytes) => joined(bytes, new Uint8Array(-bytes.length & 3));

function option(code, value) {
  const bytes = typeof value === "string" ? new TextEncoder().encode(value) : value;
  return joined(bytesOf([[2, code], [2, bytes.length]], true), padded(bytes));
}

function block(type, ...parts) {
  const body = padded(joined(...parts)), length = body.length + 12;
  return joined(bytesOf([[4, type], [4, length]], true), body, bytesOf([[4, length]], true));
}

const end = new Uint8Array(4);

function section() {
  const fixed = bytesOf([[4, 0x1a2b3c4d], [2, 1], [2, 0], [4, 0xffffffff], [4, 0xffffffff]], true);
  return block(SECTION, fixed, option(APPLICATION, "is: the page of two proved ICE agents"), end);
}

function interfaceBlock(name) {
  return block(INTERFACE, bytesOf([[2, RAW], [2, 0], [4, 0]], true), option(NAME, name), option(RESOLUTION, Uint8Array.of(MICROSECONDS)), end);
}

/** The Internet checksum (RFC 1071). */
export function checksum(bytes) {
  let sum = 0;
  for (let i = 0; i < bytes.length; i += 2) sum += (bytes[i] << 8) | (bytes[i + 1] ?? 0);
  while (sum > 0xffff) sum = (sum & 0xffff) + (sum >>> 16);
  return sum ^ 0xffff;
}

/** A UDP packet with its IPv4 header (RFC 791), and both checksums. */
export function ipPacket(source, destination, contents) {
  const here = Uint8Array.from(source.address.split("."), Number), there = Uint8Array.from(destination.address.split("."), Number);
  const length = 8 + contents.length, ports = [[2, source.port], [2, destination.port], [2, length]];
  const pseudo = joined(here, there, bytesOf([[2, UDP], [2, length]]));
  const sum = checksum(joined(pseudo, bytesOf([...ports, [2, 0]]), contents)) || 0xffff;
  const fields = [[1, 0x45], [1, 0], [2, 20 + length], [2, 0], [2, 0x4000], [1, HOPS], [1, UDP]];
  const header = bytesOf([...fields, [2, checksum(joined(bytesOf([...fields, [2, 0]]), here, there))]]);
  return joined(header, here, there, bytesOf([...ports, [2, sum]]), contents);
}

function packetBlock({ at, side, source, destination, contents, comment, isOut }) {
  const data = ipPacket(source, destination, contents), time = at * 1000;
  const fixed = [[4, side === "A" ? 0 : 1], [4, Math.floor(time / 2 ** 32)], [4, time % 2 ** 32], [4, data.length], [4, data.length]];
  const flags = bytesOf([[4, isOut ? OUTBOUND : INBOUND]], true);
  return block(PACKET, bytesOf(fixed, true), padded(data), option(COMMENT, comment), option(FLAGS, flags), end);
}

/** What both agents sent and received up to now, in the order of time. */
export function packetsOf({ tracks, now }) {
  const found = [];
  for (const track of tracks) {
    if (!track.contents || track.sent > now) continue;
    const { side, sent, source, destination, contents, taken, end: ended, isHostile } = track, label = labelOf(track);
    const fate = ended && ended.at <= now ? `, does not arrive: ${ended.why}` : "";
    if (!isHostile) found.push({ at: sent, side, source, destination, contents, comment: `${label}${fate}`, isOut: true });
    if (!taken || taken.at > now) continue;
    const comment = `${label}${taken.accepted ? "" : ", refused"}`;
    found.push({ at: taken.at, side: side === "A" ? "B" : "A", source: taken.source, destination: taken.local, contents, comment, isOut: false });
  }
  return found.sort((a, b) => a.at - b.at);
}

/** A capture in pcapng, with an interface for each agent, and a comment on each packet that says what it is and why it is lost. */
export function captureOf(session) {
  return joined(section(), interfaceBlock("A"), interfaceBlock("B"), ...packetsOf(session).map(packetBlock));
}
