//! Credentials.

use crate::error::{CallError, found, or_panic};
use crate::ffi;
use std::fmt;

/// The credentials of an agent. Signaling sends them to the peer.
///
/// `{:?}` prints no password, so logs may have it:
///
/// ```
/// let creds = is::IceCreds { ufrag: "EsAw".to_owned(), pass: "P2uYro0UCOQ4zxjKXaWCBui1".to_owned() };
/// assert_eq!(format!("{creds:?}"), r#"IceCreds { ufrag: "EsAw", pass: ".." }"#);
/// ```
#[derive(Clone, PartialEq, Eq, Hash)]
#[cfg_attr(any(feature = "serde", str0m_types), derive(::serde::Serialize, ::serde::Deserialize))]
pub struct IceCreds {
    /// The username fragment, of `a=ice-ufrag`.
    pub ufrag: String,
    /// The password, of `a=ice-pwd`.
    pub pass: String,
}

impl IceCreds {
    /// Creates random credentials: a username fragment of 16 characters and a password of 22.
    ///
    /// # Panics
    ///
    /// If the system has no random bytes, or if out of memory. `try_new` returns an error then.
    #[allow(clippy::new_without_default)]
    #[track_caller]
    pub fn new() -> IceCreds {
        or_panic(IceCreds::try_new())
    }

    /// As `new`.
    ///
    /// # Errors
    ///
    /// [`CallError::NoRandomBytes`], [`CallError::OutOfMemory`].
    pub fn try_new() -> Result<IceCreds, CallError> {
        let random: [u8; ffi::CREDENTIALS_RANDOM] = ffi::random().ok_or(CallError::NoRandomBytes)?;
        let (mut ufrag, mut pass) = ([0; ffi::UFRAG_LENGTH], [0; ffi::PASS_LENGTH]);
        found(ffi::is_ice_make_credentials(&random, &mut ufrag, &mut pass))?;
        let text = |bytes: &[u8]| String::from_utf8_lossy(bytes).into_owned();
        Ok(IceCreds { ufrag: text(&ufrag), pass: text(&pass) })
    }
}

impl IceCreds {
    /// Whether both texts are in the grammar of signaling (RFC 8839, section 5.4): `A` to `Z`, `a` to `z`, `0` to `9`, `+` and `/`, 4 to
    /// 256 of them in the username fragment and 22 to 256 in the password. Agents take other texts too, since those of other makers use
    /// further characters.
    ///
    /// ```
    /// let creds = |ufrag: &str| is::IceCreds { ufrag: ufrag.to_owned(), pass: "asd88fgpdd777uzjYhagZg".to_owned() };
    /// assert!(creds("8hhY").is_in_grammar() && is::IceCreds::new().is_in_grammar());
    /// assert!(!creds("8hh").is_in_grammar() && !creds("8h Y").is_in_grammar());
    /// ```
    pub fn is_in_grammar(&self) -> bool {
        ffi::is_ice_check_text(ffi::TEXT_UFRAG, self.ufrag.as_bytes()) == ffi::OK
            && ffi::is_ice_check_text(ffi::TEXT_PASS, self.pass.as_bytes()) == ffi::OK
    }
}

impl IceCreds {
    pub(crate) fn of([ufrag, pass]: [String; 2]) -> IceCreds {
        IceCreds { ufrag, pass }
    }
}

impl fmt::Debug for IceCreds {
    fn fmt(&self, f: &mut fmt::Formatter<'_>) -> fmt::Result {
        f.debug_struct("IceCreds").field("ufrag", &self.ufrag).field("pass", &"..").finish()
    }
}
