//! Clients of STUN and TURN servers (RFC 8489, RFC 8656), over UDP, TCP and TLS. The original has none.
//!
//! [`IceGatherer`] is an agent with such clients, for the servers of a list as browsers have it. [`Servers`] are the clients without the
//! agent. Neither has sockets, clocks or threads: both say what to send and when to call again, as an agent does.
//!
//! ```
//! use is::servers::{Scheme, ServerUrl, Transport};
//!
//! let url = ServerUrl::parse("turn:turn.example.org?transport=tcp")?;
//! assert_eq!((url.scheme, url.transport, url.host, url.port), (Scheme::Turn, Transport::Tcp, "turn.example.org", 3478));
//! # Ok::<(), is::CallError>(())
//! ```

mod clients;
mod event;
mod framing;
mod gathered;
mod gatherer;
mod known;
mod passing;
mod url;

pub use clients::{Datagram, Family, Outgoing, PLACES, ServerPacket, Servers, Transport, TurnServer, WRAPPING_LENGTH};
pub use event::{Allocation, Ending, Happened, ServerEvent, Why};
pub use framing::{Frame, Frames, frame_length};
pub use gathered::{GatherEvent, Received};
pub use gatherer::IceGatherer;
pub use known::{IceServer, Server};
pub use url::{Scheme, ServerUrl};
