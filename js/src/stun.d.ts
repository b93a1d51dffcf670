/** STUN messages (RFC 8489). */
import type { Bytes, SocketAddress } from "./address.js";

/** Returns whether a datagram begins as a STUN message, and not as media on the same socket (RFC 7983). */
export function isStun(datagram: Bytes): boolean;
/** Creates a transaction ID: 12 bytes of the system's random source. */
export function newTransaction(): Uint8Array;
/** Returns a Binding request without credentials, for a STUN server. */
export function bindingRequest(transaction: Bytes): Uint8Array;
/** Reads the response to the Binding request with this transaction ID. null: it is not that response. Nothing is verified. */
export function bindingResponse(transaction: Bytes, datagram: Bytes): BindingResponse | null;
export type BindingResponse =
  /** The address at which the server saw the client. */
  | { mapped: SocketAddress; error?: undefined }
  | { error: StunError; mapped?: undefined };

/** The code of an error response, 300 to 699, and its reason phrase (RFC 8489, section 14.8). */
export interface StunError {
  code: number;
  reason: string;
}
export type StunMethod = "binding" | "allocate" | "refresh" | "send" | "data" | "create-permission" | "channel-bind";
export type StunClass = "request" | "indication" | "success" | "failure";

/** The attributes of a message. Of a message that was read, what it does not have is null. */
export interface StunAttributes {
  /** RFC 8445, section 16.1, as the next three. */
  priority?: number | null;
  useCandidate?: boolean;
  iceControlled?: bigint | null;
  iceControlling?: bigint | null;
  /** XOR-MAPPED-ADDRESS. */
  mappedAddress?: SocketAddress | null;
  error?: StunError | null;
  username?: string | null;
  realm?: string | null;
  nonce?: string | null;
  software?: string | null;
  /** RFC 8656, section 18, as the next four. `lifetime` is in seconds. */
  lifetime?: number | null;
  channelNumber?: number | null;
  peerAddress?: SocketAddress | null;
  relayedAddress?: SocketAddress | null;
  data?: Uint8Array | null;
  /** NETWORK-COST: the ID of the sender's network, and its cost. */
  networkCost?: { id: number; cost: number } | null;
  /** NOMINATION (draft-thatcher-ice-renomination). */
  nomination?: number | null;
  /** REQUESTED-TRANSPORT (RFC 8656, section 18.7): the protocol that an Allocate request requests. 17 is UDP. */
  requestedTransport?: number | null;
  /** REQUESTED-ADDRESS-FAMILY (RFC 8656, section 18.6) of an Allocate request. Without it a server allocates an IPv4 address. */
  requestedFamily?: 4 | 6 | null;
}
/** A message that was read. `other`: any method that is not listed. */
export interface StunMessage extends Required<StunAttributes> {
  method: StunMethod | "other";
  class: StunClass;
  transaction: Uint8Array;
  /** Whether it has MESSAGE-INTEGRITY, which `verifyMessage` verifies. */
  hasIntegrity: boolean;
  /** Whether it has FINGERPRINT, which is not verified. */
  hasFingerprint: boolean;
}
/**
 * Reads a message of any method and class. `Unparsed`: it is not a STUN message, or has a malformed attribute. `strict`: as
 * `handlePacket` reads it; `Unparsed` also for a Binding request or success response without an attribute that ICE requires. Nothing is
 * verified.
 */
export function readMessage(datagram: Bytes, options?: { strict?: boolean }): StunMessage;
/**
 * Writes a message: the attributes that are neither undefined nor null, MESSAGE-INTEGRITY if there is a key, and FINGERPRINT. In ICE the
 * key is the password of the request's receiver, at a TURN server the MD5 digest of USERNAME, realm and password with colons between them
 * (RFC 8489, section 9.2.2). To a TURN server write no `software`: its type here is another attribute there. Throws `BadMessage` or
 * `MessageTooLong`, `BadAddress` for a family other than 4 and 6, and RangeError for a number that does not fit its attribute.
 */
export function writeMessage(
  message: { method: StunMethod | "other"; class: StunClass; transaction: Bytes } & StunAttributes, key?: string | Bytes | null,
): Uint8Array;
/** Returns whether a message has the MESSAGE-INTEGRITY of this key (RFC 8489, section 14.5). */
export function verifyMessage(datagram: Bytes, key: string | Bytes): boolean;
/** Returns the HMAC-SHA1 of bytes under a key (RFC 2104). */
export function hmacSha1(key: string | Bytes, bytes: Bytes): Uint8Array;
/**
 * Returns the username fragments in a message's USERNAME, or null if it has none with a colon. `Unparsed` if it is not a STUN message.
 * So a socket finds its agent in a `Map` by `receiver`, without asking each agent.
 */
export function stunUsername(datagram: Bytes): { receiver: string; sender: string } | null;
/** Returns the username fragments in a USERNAME that is in no message, or null. */
export function usernameParts(text: string): { receiver: string; sender: string } | null;
