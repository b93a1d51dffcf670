import type { AgentSettings } from "./abi.js";

export type { AgentSettings };
/** Returns the settings with which a new agent begins: they make agents connect sooner, and end consent in time. */
export function modernSettings(): AgentSettings;
/** Returns the settings of the Rust crate `is` 0.12.0: its behavior and its numbers. */
export function originalSettings(): AgentSettings;
