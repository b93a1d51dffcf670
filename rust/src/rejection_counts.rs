//! How many packets an agent rejected, by reason: for a program that says so once for each reason, and not once for each packet.

use crate::rejection::Rejection;
use std::fmt;

/// Counts of rejected packets, by reason. The program has them: for one agent, or for all. Prints as
/// `2 x response to no pending check, 7 x request signed with another password than the agent's`.
///
/// ```
/// use is::{Rejection, RejectionCounts};
///
/// let mut counts = RejectionCounts::new();
/// if counts.note(Rejection::LocalPassword) == 1 {
///     println!("the peer has a wrong password"); // once
/// }
/// assert_eq!((counts.of(Rejection::LocalPassword), counts.of(Rejection::Path)), (1, 0));
/// assert_eq!(counts.to_string(), "1 x request signed with another password than the agent's");
/// ```
#[derive(Clone, Debug, Default, PartialEq, Eq)]
pub struct RejectionCounts {
    /// In the order in which they came first.
    counted: Vec<(Rejection, u64)>,
}

impl RejectionCounts {
    /// Counts of nothing.
    pub fn new() -> RejectionCounts {
        RejectionCounts::default()
    }

    /// Counts a packet that was rejected for this reason, and returns how many were.
    pub fn note(&mut self, why: Rejection) -> u64 {
        if let Some((_, count)) = self.counted.iter_mut().find(|(known, _)| *known == why) {
            *count = count.saturating_add(1);
            return *count;
        }
        self.counted.push((why, 1));
        1
    }

    /// How many packets were rejected for this reason.
    pub fn of(&self, why: Rejection) -> u64 {
        self.counted.iter().find(|(known, _)| *known == why).map_or(0, |(_, count)| *count)
    }

    /// The reasons that were counted, in the order in which they came first.
    pub fn iter(&self) -> impl Iterator<Item = (Rejection, u64)> + '_ {
        self.counted.iter().copied()
    }
}

impl fmt::Display for RejectionCounts {
    fn fmt(&self, f: &mut fmt::Formatter<'_>) -> fmt::Result {
        for (at, (why, count)) in self.iter().enumerate() {
            write!(f, "{}{count} x {why}", if at == 0 { "" } else { ", " })?;
        }
        Ok(())
    }
}
