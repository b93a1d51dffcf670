/**
 * A call failed. Except for `Trapped`, the agent is as it was, and the call can be repeated. `Trapped`: the module stopped, which no
 * known call does. The agents that were there are lost, and each of their calls throws this. New agents get a new instance of the
 * module.
 */
export class IceError extends Error {
  readonly name: "IceError";
  readonly code: IceErrorCode;
}
export type IceErrorCode =
  | "NoAgent" | "NotUtf8" | "BadAddress" | "Unparsed" | "OutOfMemory" | "BadCandidate" | "PairIdsExhausted" | "MtuTooSmall"
  | "CredentialsTooLong" | "PriorityTooHigh" | "BadLimit" | "TooFewRandomBytes" | "BadMessage" | "MessageTooLong" | "TooManyCandidates"
  | "LiteStaysControlled" | "BadUrl" | "NoServers" | "Trapped";
