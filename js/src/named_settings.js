// All that a program may choose of an agent, in one object. The fields are those of the header's struct.
import { done } from "./errors.js";
import { library } from "./module.js";
import { namesOf, readStruct, writeStruct } from "./structs.js";

function named(name) {
  const memory = library();
  done(memory.call(name, memory.result.arg));
  return readStruct(memory, "AgentSettings");
}

/** Writes settings, and returns the argument for them. TypeError for a name that is no setting. */
export function putSettings(memory, settings) {
  const known = namesOf("AgentSettings"), other = Object.keys(settings).find((name) => !known.includes(name));
  if (other !== undefined) throw new TypeError(`no setting: ${other}`);
  writeStruct(memory, "AgentSettings", memory.first.at, settings);
  return memory.first.arg;
}

/** Returns the settings with which a new agent begins: they make agents connect sooner, and end consent in time. */
export const modernSettings = () => named("is_ice_modern_settings");

/** Returns the settings of the Rust crate `is` 0.12.0: its behavior and its numbers. */
export const originalSettings = () => named("is_ice_original_settings");
