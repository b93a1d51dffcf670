"""Whether credentials and foundations are in the grammar of signaling (RFC 8839, sections 5.1 and 5.4). An agent takes any text."""

from __future__ import annotations

from ._library import library
from .errors import done, utf8
from .events import IceCreds

# the kinds of is_ice_check_text
_UFRAG, _PASS, _FOUNDATION = 0, 1, 2


def _is_in_grammar(kind: int, text: str) -> bool:
    data = utf8(text)
    return done(library.calls.is_ice_check_text(kind, data, len(data)))


def is_foundation(text: str) -> bool:
    """Returns whether a text is a foundation: 1 to 32 letters, digits, '+' and '/'."""
    return _is_in_grammar(_FOUNDATION, text)


def checked(creds: IceCreds) -> IceCreds:
    """Returns the credentials. ValueError if they are not in the grammar, NotUtf8 for a lone surrogate."""
    for what, kind, text in (("username fragment", _UFRAG, creds.ufrag), ("password", _PASS, creds.pass_)):
        if not _is_in_grammar(kind, text):
            raise ValueError(f"the {what} is not in the grammar of RFC 8839, section 5.4: see IceAgent.set_local_credentials")
    return creds
