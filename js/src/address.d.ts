export type Protocol = "udp" | "tcp" | "ssltcp" | "tls";
export type Bytes = ArrayBuffer | ArrayBufferView;

/**
 * An IP address, as text, and a port. So `rinfo` of `node:dgram` is one. A zone, as in `fe80::1%eth0`, is left out: `scope` is its
 * number.
 */
export interface SocketAddress {
  address: string;
  port: number;
  /** Flow information of IPv6, by default 0. */
  flow?: number;
  /** The scope ID of IPv6, by default 0. */
  scope?: number;
}
/** An address as text: `192.0.2.1:5000` or `[2001:db8::1]:5000`. */
export function addressText(address: SocketAddress): string;
