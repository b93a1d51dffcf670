// In Node: resolves the names of servers, and opens connections to them.
import dns from "node:dns/promises";
import net from "node:net";
import tls from "node:tls";

const PATIENCE = 10000; // milliseconds that the opening of a connection may take

/** The IP addresses of a name: the first one of each IP version. */
export async function addressesOf(host) {
  const all = await dns.lookup(host, { all: true });
  return [4, 6].flatMap((family) => all.find((it) => it.family === family)?.address ?? []);
}

/** Whom the certificate of a server is for, as an option of tls.connect. */
export const serverName = (host) => ({ servername: net.isIP(host) ? "" : host });

/** Opens a connection over TCP or TLS: with TLS the certificate is one for the host. `options` are those of tls.connect. */
export function connected({ protocol, host, port }, options) {
  const isSecure = protocol === "tls";
  const stream = isSecure ? tls.connect({ ...serverName(host), ...options, host, port }) : net.connect({ host, port });
  stream.setNoDelay(true);
  return new Promise((resolve, reject) => {
    const timer = setTimeout(() => stream.destroy(new Error("the server does not answer")), PATIENCE);
    const end = (done, value) => (clearTimeout(timer), done(value));
    stream.once("error", (error) => end(reject, error));
    stream.once("close", () => end(reject, new Error("the connection was closed")));
    stream.once(isSecure ? "secureConnect" : "connect", () => end(resolve, stream));
  });
}

/** The addresses of a connection. */
export const localOf = ({ localAddress, localPort }) => ({ address: localAddress, port: localPort });
export const remoteOf = ({ remoteAddress, remotePort }) => ({ address: remoteAddress, port: remotePort });
