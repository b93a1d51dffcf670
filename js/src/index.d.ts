/** A proved ICE agent (RFC 8445). Times and durations are milliseconds, as those of `performance.now()` and `setTimeout`. */
export * from "./address.js";
export { IceAgent } from "./agent.js";
export * from "./candidate.js";
export * from "./credentials.js";
export * from "./errors.js";
export * from "./events.js";
export * from "./gatherer.js";
export * from "./lines.js";
export * from "./module.js";
export * from "./named_settings.js";
export * from "./servers.js";
export type { KindPreferences } from "./settings.js";
export * from "./stun.js";
export * from "./timing.js";
