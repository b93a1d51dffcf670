// STUN messages (RFC 8489): a client's request and its response, and any message by its attributes, read and written by the module.
import { NUMBERS, STRUCTS } from "./abi.js";
import { random } from "./credentials.js";
import { done } from "./errors.js";
import { bytesOf, textOf, utf8 } from "./memory.js";
import { library } from "./module.js";
import { small, whole } from "./numbers.js";
import { readStruct, writeStruct } from "./structs.js";
import { CLASSES, METHODS, numberOf } from "./words.js";

const [ID_LENGTH] = STRUCTS.StunTransaction;
// The texts of a message: their names here and in the header's struct, and the attributes that have them.
const TEXTS = {
  username: ["username", NUMBERS.STUN_USERNAME], reason: ["reason", NUMBERS.STUN_ERROR_CODE], realm: ["realm", NUMBERS.STUN_REALM],
  nonce: ["nonce", NUMBERS.STUN_NONCE], software: ["software", NUMBERS.STUN_SOFTWARE], data: ["data", NUMBERS.STUN_DATA],
};

/** A key or a password as bytes. */
const keyOf = (key) => (typeof key === "string" ? utf8(key) : bytesOf(key));

function idOf(transaction) {
  const id = bytesOf(transaction);
  if (id.length !== ID_LENGTH) throw new RangeError(`a transaction ID has ${ID_LENGTH} bytes, not ${id.length}`);
  return id;
}

/** Returns whether a datagram begins as a STUN message, and not as media on the same socket (RFC 7983). */
export const isStun = (datagram) => done(library().call("is_ice_is_stun", ...library().put(bytesOf(datagram))));

// ---- a server-reflexive address

/** Creates a transaction ID: 12 bytes of the system's random source. */
export const newTransaction = () => random(ID_LENGTH);

/** Returns a Binding request without credentials. */
export function bindingRequest(transaction) {
  const memory = library(), { first } = memory;
  memory.bytes.set(idOf(transaction), first.at);
  return memory.bytesFrom("is_ice_stun_request", [first.arg]);
}

/** Reads the response to the Binding request with this transaction ID: { mapped } or { error }. null: it is another datagram. */
export function bindingResponse(transaction, datagram) {
  const memory = library(), { first, result } = memory, bytes = bytesOf(datagram);
  memory.bytes.set(idOf(transaction), first.at);
  try {
    if (!done(memory.call("is_ice_stun_response", first.arg, ...memory.put(bytes), result.arg))) return null;
  } catch (error) {
    if (error.code === "Unparsed") return null;
    throw error;
  }
  const code = memory.view.getUint16(result.at + offset("StunResult", "errorCode"), true);
  if (code !== 0) return { error: { code, reason: textIn(memory, NUMBERS.STUN_ERROR_CODE, bytes) ?? "" } };
  return { mapped: readStruct(memory, "StunResult").mapped };
}

const offset = (kind, name) => STRUCTS[kind].slice(1).find(([field]) => field === name)[1];

// ---- any message

const bytesIn = (memory, attribute, bytes) => memory.bytesFrom("is_ice_stun_text", [attribute, ...memory.put(bytes)]);

function textIn(memory, attribute, bytes) {
  const found = bytesIn(memory, attribute, bytes);
  return found && textOf(found);
}

const numberIn = ({ value, isSet }) => (isSet ? Number(value) : null);
const bitsIn = ({ value, isSet }) => (isSet ? value : null);

/** Reads a message of any method and class. An attribute that it does not have is null. Nothing is verified.
 *
 *  `strict`: as `handlePacket` reads it. It throws "Unparsed" also for one without an attribute that ICE requires. */
export function readMessage(datagram, { strict = false } = {}) {
  const memory = library(), bytes = bytesOf(datagram), { result } = memory;
  done(memory.call(strict ? "is_ice_stun_read_strict" : "is_ice_stun_read", ...memory.put(bytes), result.arg));
  const it = readStruct(memory, "StunMessage"), text = (name) => textIn(memory, TEXTS[name][1], bytes);
  const [code, id, cost] = [it.errorCode, it.networkId, it.networkCost].map(numberIn);
  return {
    method: METHODS[it.method], class: CLASSES[it.cls], transaction: it.id.bytes,
    priority: numberIn(it.priority), useCandidate: it.useCandidate,
    iceControlled: bitsIn(it.controlled), iceControlling: bitsIn(it.controlling),
    mappedAddress: it.mapped, peerAddress: it.peer, relayedAddress: it.relayed,
    error: code === null ? null : { code, reason: text("reason") ?? "" },
    lifetime: numberIn(it.lifetime), channelNumber: numberIn(it.channelNumber),
    networkCost: id === null || cost === null ? null : { id, cost }, nomination: numberIn(it.nomination),
    requestedTransport: it.requestedTransport || null, requestedFamily: it.requestedFamily || null,
    username: text("username"), realm: text("realm"), nonce: text("nonce"), software: text("software"),
    data: bytesIn(memory, NUMBERS.STUN_DATA, bytes),
    hasIntegrity: it.hasIntegrity, hasFingerprint: it.hasFingerprint,
  };
}

/** The struct of a message to write, without its texts. */
function structOf(message, hasIntegrity) {
  const number = (value, name, bits) =>
    value === null || value === undefined ? undefined : { value: whole(value, name, bits), isSet: true };
  const { error, networkCost } = message;
  return {
    id: { bytes: idOf(message.transaction) }, method: numberOf(METHODS, message.method, "method"),
    cls: numberOf(CLASSES, message.class, "class"), useCandidate: message.useCandidate, hasIntegrity,
    priority: number(message.priority, "priority", 32), lifetime: number(message.lifetime, "lifetime", 32),
    controlled: number(message.iceControlled, "iceControlled"), controlling: number(message.iceControlling, "iceControlling"),
    errorCode: number(error?.code, "an error's code", 16), nomination: number(message.nomination, "nomination", 32),
    channelNumber: number(message.channelNumber, "channelNumber", 16),
    networkId: number(networkCost?.id, "a network's ID", 16), networkCost: number(networkCost?.cost, "a network's cost", 16),
    mapped: message.mappedAddress, peer: message.peerAddress, relayed: message.relayedAddress,
    requestedTransport: message.requestedTransport, requestedFamily: message.requestedFamily,
  };
}

/** The texts of a message in one array, and the struct that says where each is. */
function textsOf({ username, error, realm, nonce, software, data }) {
  const texts = { username, reason: error?.reason, realm, nonce, software, data }, spans = {}, parts = [];
  let start = 0;
  for (const [name, text] of Object.entries(texts)) {
    if (text === null || text === undefined) continue;
    const bytes = name === "data" ? bytesOf(text) : utf8(text);
    spans[name] = { start, length: bytes.length, isSet: true };
    parts.push(bytes);
    start += bytes.length;
  }
  const all = new Uint8Array(start);
  parts.reduce((at, part) => (all.set(part, at), at + part.length), 0);
  return { spans, all };
}

/** Writes a message: the attributes that are neither undefined nor null, MESSAGE-INTEGRITY if there is a key, and FINGERPRINT.
 *
 *  Its members are those of `readMessage`. In ICE the key is the password of the request's receiver, at a TURN server the MD5 digest of
 *  USERNAME, realm and password with colons between them (RFC 8489, section 9.2.2). To a TURN server write no `software`. */
export function writeMessage(message, key = null) {
  const memory = library(), { first, second, length } = memory, { spans, all } = textsOf(message);
  writeStruct(memory, "StunMessage", first.at, structOf(message, key !== null));
  writeStruct(memory, "StunTexts", second.at, spans);
  const given = memory.put(all, key === null ? new Uint8Array() : keyOf(key));
  const buffer = memory.buffer(NUMBERS.STUN_WRITE_LENGTH + all.length + 8);
  done(memory.call("is_ice_stun_write", first.arg, second.arg, ...given, ...buffer, length.arg));
  return memory.take(Number(memory.word(length.at)));
}

/** Returns whether a message has the MESSAGE-INTEGRITY of this key. */
export const verifyMessage = (datagram, key) => done(library().call("is_ice_stun_verify", ...library().put(bytesOf(datagram), keyOf(key))));

/** Returns the HMAC-SHA1 of bytes under a key (RFC 2104). */
export const hmacSha1 = (key, bytes) => library().bytesFrom("is_ice_hmac_sha1", library().put(keyOf(key), bytesOf(bytes)));

// ---- whose request it is

/** What is before and after the colon, whose place a call has written. */
function partsOf(memory, username) {
  const colon = Number(memory.word(memory.result.at));
  return { receiver: textOf(username.subarray(0, colon)), sender: textOf(username.subarray(colon + 1)) };
}

/** Returns the username fragments in a message's USERNAME, or null if it has none: so one socket finds its agent among many. */
export function stunUsername(datagram) {
  const memory = library(), { result } = memory;
  const username = memory.bytesFrom("is_ice_stun_username", memory.put(bytesOf(datagram)), [result.arg]);
  return username && partsOf(memory, username);
}

/** Returns the username fragments in a USERNAME that is in no message, or null. */
export function usernameParts(text) {
  const memory = library(), { result } = memory, username = utf8(text);
  return done(memory.call("is_ice_username_parts", ...memory.put(username), result.arg)) ? partsOf(memory, username) : null;
}
