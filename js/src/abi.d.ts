// Made by `c/abi/make` from c/is_ice.h: edit that, and run it again.

/** All that a program may choose of an agent: see is_ice_set_settings. Times are in nanoseconds. Durations are milliseconds. */
export interface AgentSettings {
  /** the pacing interval Ta: see is_ice_set_timing_advance */
  timingAdvance: number;
  /** see is_ice_set_initial_rto */
  initialRto: number;
  /** see is_ice_set_max_rto */
  maxRto: number;
  /** see is_ice_set_lite_timeout */
  liteTimeout: number;
  /** with modern: so long after its last answered check a pair is removed; 0: by the RTOs */
  consentTimeout: number;
  /** see is_ice_set_max_retransmits */
  maxRetransmits: number;
  /** see is_ice_set_max_pairs */
  maxPairs: number;
  /** see is_ice_set_max_discovered */
  maxDiscovered: number;
  /** see is_ice_set_max_candidates */
  maxCandidates: number;
  /** the behavior of this library, and not that of the Rust crate `is` 0.12.0 */
  modern: boolean;
  /** with modern: the other agent's checks do not keep a pair */
  strictConsent: boolean;
  /** see is_ice_set_renomination */
  renomination: boolean;
}
