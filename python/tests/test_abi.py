"""What the module has for each number and struct of c/is_ice.h. `c/abi/make --check` compares `is_ice._abi` with the header."""

from __future__ import annotations

import ctypes
import re
import unittest
from enum import IntEnum
from pathlib import Path

from is_ice import CheckState, IceError, Rejection, Removal, TcpType, _abi
from is_ice._loop_calls import PACKET
from is_ice._server_calls import DATAGRAM
from is_ice.stun import StunClass, StunMethod, StunText

HEADER = Path(__file__).resolve().parents[2] / "c" / "is_ice.h"


class Declarations(unittest.TestCase):
    def test_each_struct_has_its_size(self) -> None:
        for struct, size in _abi.SIZES.items():
            self.assertEqual(ctypes.sizeof(struct), size, struct)
        self.assertEqual((PACKET.size, DATAGRAM.size), (ctypes.sizeof(_abi.Packet), ctypes.sizeof(_abi.Datagram)))

    @unittest.skipUnless(HEADER.exists(), "c/is_ice.h does not exist")
    def test_the_sizes_are_those_that_the_header_asserts(self) -> None:
        asserted = re.findall(r"^IS_ICE_SIZE\(is_ice_(\w+), (\d+)\);$", HEADER.read_text(), re.M)
        named = {"".join(part.capitalize() for part in name.split("_")): int(size) for name, size in asserted}
        self.assertEqual(named, {struct.__name__: size for struct, size in _abi.SIZES.items()})

    def test_each_number_has_a_member(self) -> None:
        enums: dict[str, list[type[IntEnum]]] = {"PAIR_": [CheckState], "REJECTED_": [Rejection], "REMOVED_": [Removal], "TCP_": [TcpType],
                                                 "STUN_": [StunMethod, StunClass, StunText]}
        others = {"PAIR_IDS_EXHAUSTED", "TCP_UNSTATED", "STUN_REQUEST_LENGTH", "STUN_UDP", "STUN_WRITE_LENGTH"}
        for prefix, kinds in enums.items():
            names = {prefix + ("DATA_INDICATION" if member is StunMethod.DATA else member.name) for kind in kinds for member in kind}
            # a malformed datagram is an error of other calls
            self.assertEqual(names - {"REJECTED_UNPARSED"}, {name for name in vars(_abi) if name.startswith(prefix)} - others)

    def test_each_error_code_has_an_exception(self) -> None:
        kinds = {re.sub(r"(?<!^)(?=[A-Z])", "_", kind.__name__).upper(): kind for kind in IceError.__subclasses__()}
        self.assertEqual({kind.code: kind.text for kind in kinds.values()}, {code: text for code, text in _abi.TEXTS.items() if code < 0})
        for name, kind in kinds.items():
            self.assertEqual(kind.code, getattr(_abi, name), name)


if __name__ == "__main__":
    unittest.main()
