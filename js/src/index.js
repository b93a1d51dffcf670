// A proved ICE agent (RFC 8445) for JavaScript: a class over the module of WebAssembly. README.md shows the loop.
//
//   import { init, IceAgent } from "is-ice";
//   await init();
//   const agent = new IceAgent();
export { addressText } from "./address.js";
export { IceAgent } from "./agent.js";
export { Candidate } from "./candidate.js";
export { firstRole, isInGrammar, newCreds } from "./credentials.js";
export { IceError } from "./errors.js";
export { IceGatherer } from "./gatherer.js";
export {
  candidateFields, candidateLine, candidateRefusal, defaultLocalPreference, fieldsLine, jsonFields, jsonRefusal, lineFields,
  lineFieldsWithAddress, lineFieldsWithUfrag, lineFromJson, lineName, lineRefusal, lineToJson, lineWithAddress, lineWithUfrag,
} from "./lines.js";
export { heapUsed, init } from "./module.js";
export { modernSettings, originalSettings } from "./named_settings.js";
export { frameLength, Frames, serverEventLine, Servers, serverUrl } from "./servers.js";
export {
  bindingRequest, bindingResponse, hmacSha1, isStun, newTransaction, readMessage, stunUsername, usernameParts, verifyMessage, writeMessage,
} from "./stun.js";
export { isHostAddress, retransmitDelay, retransmitTimeout } from "./timing.js";
