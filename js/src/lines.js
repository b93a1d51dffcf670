// Candidates as texts, the candidate attributes of RFC 8839, and as the JSON of browsers. The module reads and writes them all.
import { putAddress } from "./address.js";
import { fieldsFrom, putCandidate, putFields } from "./candidate.js";
import { done, explained } from "./errors.js";
import { utf8 } from "./memory.js";
import { library } from "./module.js";
import { whole } from "./numbers.js";

const textFrom = (name, ...texts) => library().textFrom(name, library().putText(...texts));
const fieldsOf = (name, ...texts) => fieldsFrom(library(), name, library().putText(...texts));

/** Reads a candidate as `addRemoteCandidate` does, and returns what the agent would use. */
export const lineFields = (line) => explained(() => fieldsOf("is_ice_line_fields", line), () => lineRefusal(line));

/** Returns why a text is not a candidate, or null if it is one. */
export const lineRefusal = (line) => textFrom("is_ice_line_refusal", line);

/** Returns the candidate that a peer signals with these fields: its text, and the fields that `lineFields` reads from that. */
export function fieldsLine(fields) {
  const memory = library(), foundation = utf8(fields.foundation);
  return fieldsFrom(memory, "is_ice_fields_line", [putFields(memory, fields), ...memory.put(foundation)]);
}

// ---- candidates that the program gathered, without an agent

/** Returns the text of a gathered candidate: with the priority of the first one of its kind, without a username fragment. */
export function candidateLine(candidate) {
  const memory = library();
  const read = () => memory.textFrom("is_ice_candidate_line", [putCandidate(memory, candidate)]);
  return explained(read, () => candidateRefusal(candidate));
}

/** Returns the fields of that candidate. */
export function candidateFields(candidate) {
  const memory = library();
  const read = () => fieldsFrom(memory, "is_ice_candidate_fields", [putCandidate(memory, candidate)]);
  return explained(read, () => candidateRefusal(candidate));
}

/** Returns why `addLocalCandidate` fails with "BadCandidate" for a gathered candidate, or null if it does not. */
export const candidateRefusal = (candidate) => library().textFrom("is_ice_candidate_refusal", [putCandidate(library(), candidate)]);

// ---- texts that are changed

/** Returns the mDNS name that a candidate has in place of an address, to hide it, or null if it has none. */
export const lineName = (line) => textFrom("is_ice_line_name", line);

function withAddress(line, address, read) {
  const memory = library(), { second } = memory;
  putAddress(memory, second.at, { address, port: 0 });
  const refusal = () => (lineName(line) === null ? lineRefusal(line) : null); // of a name it would be that it is no address
  const detail = () => refusal() ?? `${line}: not a candidate with an address either`;
  return explained(() => read(memory, [...memory.putText(line), second.arg]), detail);
}

/** Returns the text of a candidate with this IP address in place of its own, or of its mDNS name. Unknown extensions are left out. */
export const lineWithAddress = (line, address) =>
  withAddress(line, address, (memory, before) => memory.textFrom("is_ice_line_with_address", before));

/** Returns the fields of that candidate. */
export const lineFieldsWithAddress = (line, address) =>
  withAddress(line, address, (memory, before) => fieldsFrom(memory, "is_ice_line_with_address_fields", before));

const withUfrag = (line, read) => explained(read, () => lineRefusal(line) ?? "the username fragment is not one word");

/** Returns the text of a candidate with this username fragment in place of its own. */
export const lineWithUfrag = (line, ufrag) => withUfrag(line, () => textFrom("is_ice_line_with_ufrag", line, ufrag));

/** Returns the fields of that candidate. */
export const lineFieldsWithUfrag = (line, ufrag) => withUfrag(line, () => fieldsOf("is_ice_line_with_ufrag_fields", line, ufrag));

// ---- JSON

/** Returns the JSON in which browsers signal a candidate: the RTCIceCandidateInit of WebRTC. */
export const lineToJson = (line) => explained(() => textFrom("is_ice_line_to_json", line), () => lineRefusal(line));

/** Returns the text of the candidate in such JSON, for `addRemoteCandidate`. */
export const lineFromJson = (json) => explained(() => textFrom("is_ice_line_from_json", json), () => jsonRefusal(json));

/** Returns the fields of the candidate in such JSON. */
export const jsonFields = (json) => explained(() => fieldsOf("is_ice_json_fields", json), () => jsonRefusal(json));

/** Returns why JSON is not a candidate, or null if it is one. */
export const jsonRefusal = (json) => textFrom("is_ice_json_refusal", json);

// ---- preferences

/** Returns the default local preference of a candidate, gathered or a text, that comes after `sameKind` local ones of its kind and IP
 *  version. */
export function defaultLocalPreference(candidate, sameKind) {
  const memory = library(), before = whole(sameKind, "a number of candidates"), { result } = memory;
  const isLine = typeof candidate === "string";
  const call = (name, given) => done(memory.call(name, ...given, before, result.arg));
  if (isLine) explained(() => call("is_ice_line_preference", memory.putText(candidate)), () => lineRefusal(candidate));
  else explained(() => call("is_ice_candidate_preference", [putCandidate(memory, candidate)]), () => candidateRefusal(candidate));
  return memory.view.getUint32(result.at, true);
}
