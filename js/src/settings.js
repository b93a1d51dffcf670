// The settings of an agent. A new agent has the values that the library gives it.
import { checkedCreds } from "./credentials.js";
import { CALL, Handle, MEMORY, WITH_CREDS } from "./handle.js";
import { putSettings } from "./named_settings.js";
import { small, toCount, toNs, whole } from "./numbers.js";
import { readStruct, writeStruct } from "./structs.js";

/** The struct of settings and state. */
export const STATUS = Symbol("status");

/** The settings of an `IceAgent`: each can be set at any time. */
export class Settings extends Handle {
  setControlling(controlling) {
    this[CALL]("is_ice_set_controlling", +!!controlling);
  }

  setIceLite(enabled) {
    this[CALL]("is_ice_set_lite", +!!enabled);
  }

  setRenomination(enabled) {
    this[CALL]("is_ice_set_renomination", +!!enabled);
  }

  /** Sets those that are named. The others stay. */
  setSettings(settings) {
    this[CALL]("is_ice_set_settings", putSettings(this[MEMORY], { ...this.settings, ...settings }));
  }

  setControlTieBreaker(tieBreaker) {
    this[CALL]("is_ice_set_tie_breaker", whole(tieBreaker, "a tie-breaker"));
  }

  setMaxCandidatePairs(count) {
    this[CALL]("is_ice_set_max_pairs", whole(count, "a limit"));
  }

  setMaxDiscovered(count) {
    this[CALL]("is_ice_set_max_discovered", toCount(count));
  }

  setMaxCandidates(count) {
    this[CALL]("is_ice_set_max_candidates", toCount(count));
  }

  setTimingAdvance(ms) {
    this[CALL]("is_ice_set_timing_advance", toNs(ms));
  }

  setInitialStunRto(ms) {
    this[CALL]("is_ice_set_initial_rto", toNs(ms));
  }

  setMaxStunRto(ms) {
    this[CALL]("is_ice_set_max_rto", toNs(ms));
  }

  setMaxStunRetransmits(count) {
    this[CALL]("is_ice_set_max_retransmits", whole(count, "a limit"));
  }

  setLiteTimeout(ms) {
    this[CALL]("is_ice_set_lite_timeout", toNs(ms));
  }

  /** Infinity: the path never is silent. */
  setSilence(ms) {
    this[CALL]("is_ice_set_silence", ms === Infinity ? toCount(ms) : toNs(ms));
  }

  setMtu(mtu, warn) {
    this[CALL]("is_ice_set_mtu", whole(mtu, "an MTU"), whole(warn, "an MTU"));
  }

  /** null: the default preference again. */
  setLocalPreference(preference) {
    if (preference === null) this[CALL]("is_ice_reset_local_preference");
    else this[CALL]("is_ice_set_local_preference", small(preference, "a preference", 16));
  }

  setPreferenceTable(v4, v6) {
    const memory = this[MEMORY], { first } = memory;
    writeStruct(memory, "PreferenceTable", first.at, { v4, v6 });
    this[CALL]("is_ice_set_preference_table", first.arg);
  }

  setLocalCredentials(creds) {
    this[WITH_CREDS]("is_ice_set_local_credentials", checkedCreds(creds));
  }

  setRemoteCredentials(creds) {
    this[WITH_CREDS]("is_ice_set_remote_credentials", creds);
  }

  /** For tests of "PairIdsExhausted". */
  skipPairIds(number) {
    this[CALL]("is_ice_skip_pair_ids", whole(number, "a number of a pair"));
  }

  // ---- what is set

  get [STATUS]() {
    const memory = this[MEMORY];
    this[CALL]("is_ice_status", memory.result.arg);
    return readStruct(memory, "AgentStatus");
  }

  get controlling() {
    return this[STATUS].controlling;
  }

  get iceLite() {
    return this[STATUS].lite;
  }

  get mtu() {
    return this[STATUS].mtu;
  }

  get mtuWarn() {
    return this[STATUS].mtuWarn;
  }

  get iceTimeout() {
    return this[STATUS].iceTimeout;
  }

  get maxCandidates() {
    return this[STATUS].maxCandidates;
  }

  get settings() {
    const memory = this[MEMORY];
    this[CALL]("is_ice_settings", memory.result.arg);
    return readStruct(memory, "AgentSettings");
  }
}
