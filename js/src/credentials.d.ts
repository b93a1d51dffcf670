/** A username fragment and a password. */
export interface IceCreds {
  ufrag: string;
  pass: string;
}
/** Creates credentials from 38 random bytes, by default those of the system. Who predicts them knows the password. */
export function newCreds(seed?: Uint8Array): IceCreds;
/** Returns whether a text is in the grammar of signaling (RFC 8839, sections 5.1 and 5.4). */
export function isInGrammar(kind: "ufrag" | "pass" | "foundation", text: string): boolean;
/** Returns whether an agent is controlling at first (RFC 8445, section 6.1.1), for `IceAgent.setControlling`. */
export function firstRole(madeOffer: boolean, lite: boolean, otherIsLite: boolean): boolean;
