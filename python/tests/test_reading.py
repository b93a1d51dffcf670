"""What the module says of a candidate's text is what the agent uses: texts with odd white space, repeated keys, line ends, surrogates.

White space is Unicode's White_Space. Python's `str.split` also splits at U+001C to U+001F, and ASCII's has neither U+0085 nor U+00A0.
"""

from __future__ import annotations

import asyncio
import ipaddress
import json
import random
import time
import unittest
from collections.abc import Callable
from dataclasses import replace

from is_ice import (
    AddResult,
    BadCandidate,
    Candidate,
    CandidateFields,
    CandidateKind,
    IceAgent,
    IceCreds,
    IceError,
    NotUtf8,
    Protocol,
    SocketAddress,
    TcpType,
    candidate_fields,
    candidate_line,
    default_local_preference,
    has_mdns_name,
    line_fields,
    line_from_json,
    line_name,
    line_refusal,
    line_to_json,
    line_with_address,
    line_with_ufrag,
)
from is_ice.attribute import CandidateAttribute
from is_ice.connection import Connection
from is_ice.stun import StunClass, StunMethod, write_message

from pairs import PATIENCE, add_candidates, agent, close, gather, talk, within

HERE = SocketAddress("10.0.0.9", 1)
WORDS = ["candidate:7", "1", "udp", "2130706431", "192.0.2.1", "80", "typ", "host"]
LINE = " ".join(WORDS)
SPACES = ["\t", "\n", "\v", "\f", "\r", " ", "\x85", "\xa0", "\u1680", *map(chr, range(0x2000, 0x200B)), "\u2028", "\u2029", "\u202f",
          "\u205f", "\u3000", "\r\n", " \xa0\u3000 "]
NO_SPACES = ["\x1c", "\x1d", "\x1e", "\x1f", "\u180e", "\u200b", "\ufeff", "\0", "\x7f"]
SURROGATES = ["\ud800", LINE + "\udfff", "candidate:\udc80 1 udp 1 192.0.2.1 80 typ host"]


def an_agent() -> IceAgent:
    """An agent with a local candidate and the peer's credentials, so that it sends checks."""
    agent = IceAgent(IceCreds("abcd", "p" * 22), tie_breaker=1)
    agent.set_remote_credentials(IceCreds("efgh", "q" * 22))
    agent.add_local_candidate(Candidate.host(HERE))
    return agent


class Reading(unittest.TestCase):
    def check(self, line: str) -> CandidateFields | None:
        """Compares the readings of a text: `line_fields`, CandidateAttribute, JSON, and what an agent lists and sends a check to."""
        init = json.dumps({"candidate": line})
        with an_agent() as agent:
            try:
                fields = line_fields(line)
            except BadCandidate as error:
                with self.assertRaises(BadCandidate) as refused:
                    agent.add_remote_candidate(line)
                self.assertEqual(str(refused.exception), str(error))
                self.assertEqual(str(error), f"bad candidate: {line_refusal(line)}")
                self.assertRaises(BadCandidate, line_from_json, init)
                if line.startswith("candidate:") and line_name(line) is None:
                    self.assertRaises(ValueError, CandidateAttribute.from_sdp, line)
                return None
            self.assertIsNone(line_refusal(line))
            self.assertEqual(line_fields(fields.text), fields)
            self.assertEqual((line_from_json(init), line_from_json(line_to_json(line))), (fields.text, fields.text))
            attribute = CandidateAttribute.from_sdp(line)
            self.assertEqual(attribute, CandidateAttribute.from_fields(fields))
            self.assertEqual((attribute.foundation, attribute.component, attribute.host, attribute.port),
                             (fields.foundation, fields.component, fields.address.ip, fields.address.port))
            self.assertEqual(CandidateAttribute.from_sdp(str(attribute)), attribute)
            result = agent.add_remote_candidate(line)
            is_other = fields.ufrag not in (None, "efgh")
            self.assertIs(result, AddResult.OTHER_COMPONENT if fields.component != 1 else
                          AddResult.OTHER_UFRAG if is_other else AddResult.ADDED)
            if result.is_ignored:
                self.assertEqual(agent.remote_candidates(), [])
                return fields
            listed = replace(fields, text=fields.text.removesuffix(" ufrag efgh"), ufrag=None)  # all candidates of the agent have this one
            self.assertEqual(agent.remote_candidates(), [listed.text])
            self.assertEqual(agent.remote_fields(), [listed])
            agent.handle_timeout(60_000_000_000)
            if check := agent.poll_transmit():
                self.assertEqual((check.source, check.destination), (HERE, fields.address))
            return fields

    def test_each_white_space_ends_a_word(self) -> None:
        for space in SPACES:
            with self.subTest(space=space):
                fields = self.check(space.join(WORDS) + " 1 udp 1 9.9.9.9 5 typ host")  # what follows are keys with values
                assert fields is not None
                self.assertEqual((fields.text, fields.foundation, fields.component, fields.address),
                                 (LINE, "7", 1, SocketAddress("192.0.2.1", 80)))
                self.assertEqual((fields.priority, fields.protocol, fields.kind, fields.tcptype, fields.related, fields.ufrag),
                                 (2130706431, Protocol.UDP, CandidateKind.HOST, None, None, None))

    def test_nothing_else_ends_a_word(self) -> None:
        for character in NO_SPACES:
            with self.subTest(character=character):
                self.assertIsNone(self.check(character.join(WORDS)))
                joined = character.join(["a", *WORDS[1:]])
                fields = self.check(f"candidate:{joined} 1 udp 5 10.0.0.1 22 typ host")
                assert fields is not None
                self.assertEqual((fields.foundation, fields.address), (joined, SocketAddress("10.0.0.1", 22)))

    def test_an_agent_checks_what_a_filter_sees(self) -> None:
        """A text with two addresses, of which one is of the peer's own network."""
        for space in ("\xa0", "\u2003", "\u3000"):
            line = space.join(["candidate:1", "1", "udp", "1", "10.0.0.1", "80", "typ", "host"]) + " 1 udp 1 9.9.9.9 5 typ host"
            self.check(line)
            self.assertEqual(CandidateAttribute.from_sdp(line).host, "10.0.0.1")
        line = "\x1c".join(["candidate:a", "1", "udp", "1", "9.9.9.9", "5", "typ", "host"]) + " 1 udp 2130706431 10.0.0.1 80 typ host"
        self.check(line)
        self.assertEqual(CandidateAttribute.from_sdp(line).host, "10.0.0.1")

    def test_the_last_of_repeated_keys_counts(self) -> None:
        fields = self.check(LINE.replace("host", "srflx") + " raddr 10.0.0.1 rport 1 ufrag abcd raddr 10.0.0.2 rport 2 ufrag efgh ufrag")
        self.assertIsNone(fields)  # the last key lacks its value
        fields = self.check(LINE.replace("host", "srflx") + " raddr 10.0.0.1 rport 1 ufrag abcd raddr 10.0.0.2 rport 2 ufrag efgh x")
        assert fields is not None
        self.assertEqual((fields.related, fields.ufrag), (SocketAddress("10.0.0.2", 2), "efgh"))
        self.assertEqual(fields.text, LINE.replace("host", "srflx") + " raddr 10.0.0.2 rport 2 ufrag efgh")
        attribute = CandidateAttribute.from_sdp(fields.text)
        self.assertEqual((attribute.type, attribute.related_address, attribute.related_port), ("srflx", "10.0.0.2", 2))

    def test_a_related_address_needs_both_keys(self) -> None:
        for keys in ("raddr 10.0.0.1", "rport 9", "tcptype passive raddr 10.0.0.1"):
            fields = self.check(f"{LINE} {keys}")
            assert fields is not None
            self.assertIsNone(fields.related)

    def test_each_protocol_kind_and_tcp_type(self) -> None:
        for word, protocol in (("udp", Protocol.UDP), ("TCP", Protocol.TCP), ("sslTCP", Protocol.SSL_TCP), ("tls", Protocol.TLS)):
            fields = self.check(LINE.replace("udp", word))
            self.assertEqual(fields and fields.protocol, protocol)
            self.assertEqual(CandidateAttribute.from_sdp(LINE.replace("udp", word)).transport, word.lower())
        for word, kind in (("host", CandidateKind.HOST), ("srflx", CandidateKind.SERVER_REFLEXIVE), ("relay", CandidateKind.RELAYED),
                           ("prflx", CandidateKind.PEER_REFLEXIVE)):
            fields = self.check(LINE.replace("host", word))
            self.assertEqual(fields and fields.kind, kind)
            self.assertEqual(CandidateAttribute.from_sdp(LINE.replace("host", word)).type, word)
        for word, tcptype in (("active", TcpType.ACTIVE), ("Passive", TcpType.PASSIVE), ("so", TcpType.SO)):
            line = f"{LINE.replace('udp', 'tcp')} tcptype {word}"
            fields = self.check(line)
            self.assertEqual(fields and fields.tcptype, tcptype)
            self.assertEqual(CandidateAttribute.from_sdp(line).tcptype, word.lower())

    def test_no_line_end_is_handed_on(self) -> None:
        line = LINE + "\r\na=candidate:2 1 udp 1 9.9.9.9 5 typ host\r\n"
        self.check(line)
        for text in (CandidateAttribute.from_sdp(line).to_sdp(), str(CandidateAttribute.from_sdp(line)), line_fields(line).text,
                     line_with_ufrag(line, "efgh"), line_with_address(line, "192.0.2.7"), line_to_json(line)):
            self.assertNotRegex(text, "[\r\n]")
        self.assertEqual(str(CandidateAttribute.from_sdp(line)), LINE)

    def test_random_texts(self) -> None:
        rng = random.Random(1)
        words = [*WORDS, "candidate:", "candidate:a", "2", "tcp", "0", "4294967295", "4294967296", "2001:db8::1", "1.2.3", "x.local",
                 "65535", "65536", "+1", "٣", "srflx", "relay", "prflx", "raddr", "rport", "tcptype", "ufrag", "efgh", "generation",
                 "10.0.0.2", "9", "active", "é", "", "network-cost"]
        read = 0
        for _ in range(1000):
            line = WORDS[:]
            for _ in range(rng.randrange(3)):
                line[rng.randrange(len(line))] = rng.choice(words)
            line += [rng.choice(words) for _ in range(rng.randrange(6))]
            spaces = [rng.choice([" "] * 99 + SPACES + NO_SPACES) for _ in line]
            text = "".join(space + word for space, word in zip(["", *spaces], line))
            read += self.check(text) is not None
        self.assertGreater(read, 200)

    def test_an_attribute_is_compared_and_hashed_by_its_fields(self) -> None:
        texts = (LINE, LINE.replace(" ", "\xa0"), LINE.replace("udp", "UDP"), LINE.removeprefix("candidate:"), LINE + " x 5 generation 0")
        self.assertEqual({str(attribute) for attribute in {CandidateAttribute.from_sdp(text) for text in texts}}, {LINE})
        self.assertNotEqual(CandidateAttribute.from_sdp(LINE), CandidateAttribute.from_sdp(LINE.replace("80", "81")))


class Lines(unittest.TestCase):
    def test_the_fields_of_a_gathered_candidate(self) -> None:
        base, seen = SocketAddress("10.0.0.1", 5000), SocketAddress("2001:db8::1", 6000)
        for candidate in (Candidate.host(base), Candidate.host(seen, Protocol.TCP, TcpType.SO),
                          Candidate.server_reflexive(base._replace(ip="192.0.2.1"), base)):
            fields = candidate_fields(candidate)
            self.assertEqual(fields.text, candidate_line(candidate))
            self.assertEqual((fields.address, fields.local, fields.kind, fields.protocol, fields.tcptype),
                             (candidate.address, candidate.base, candidate.kind, candidate.protocol, candidate.tcptype))
            self.assertEqual(line_fields(fields.text).address, candidate.address)
            with an_agent() as agent:
                listed = agent.add_local_candidate(candidate)
                self.assertEqual([fields.text for fields in agent.local_fields()], [candidate_line_of(agent, HERE), listed])
                self.assertEqual((agent.local_fields()[1].address, agent.local_fields()[1].local), (candidate.address, candidate.base))
                self.assertEqual(agent.local_fields()[1].ufrag, "abcd")
        self.assertRaises(BadCandidate, candidate_fields, Candidate.host(SocketAddress("0.0.0.0", 1)))

    def test_nobody_gathers_peer_reflexive_candidates(self) -> None:
        candidate = Candidate(CandidateKind.PEER_REFLEXIVE, HERE, HERE)
        calls: tuple[Callable[[], object], ...] = (
            lambda: candidate_line(candidate), lambda: candidate_fields(candidate), lambda: an_agent().add_local_candidate(candidate),
            lambda: default_local_preference(candidate, 0), lambda: an_agent().invalidate_candidate(candidate))
        for call in calls:
            with self.assertRaisesRegex(IceError, "bad address family, protocol or kind"):
                call()

    def test_names_of_mdns(self) -> None:
        for space in (" ", "\xa0", "\u3000"):
            for name in ("3f2b8c1e.local", "A.LOCAL", ".local", "x.y.local"):
                line = LINE.replace("192.0.2.1", name).replace(" ", space)
                self.assertEqual((line_name(line), has_mdns_name(line)), (name, True))
                self.assertEqual(line_with_address(line, "192.0.2.1"), LINE)
                attribute = CandidateAttribute.from_sdp(line)
                self.assertEqual((attribute.host, attribute.port, attribute.priority), (name, 80, 2130706431))
                with an_agent() as agent:
                    self.assertRaises(BadCandidate, agent.add_remote_candidate, line)
        for line in (LINE, "", "candidate:1 1 udp", LINE.replace(" ", "\x1c"), LINE + " x.local", LINE.replace("192.0.2.1", "local")):
            self.assertIsNone(line_name(line))
        for line, why in ((LINE.replace("192.0.2.1", "x.local"), "with an address either"), (LINE, "type: odd")):
            with self.assertRaisesRegex(BadCandidate, why):
                line_with_address(line.replace("host", "odd"), "192.0.2.1")
        self.assertRaises(ValueError, line_with_address, LINE, "not an address")
        self.assertEqual(line_with_address(LINE + " generation 0 ufrag x", "2001:db8::1"),
                         LINE.replace("192.0.2.1", "2001:db8::1") + " ufrag x")

    def test_a_username_fragment_is_one_word(self) -> None:
        for ufrag in ("", " ", "a b", "a\xa0b", "\u3000", "a\r\nb"):
            self.assertRaises(BadCandidate, line_with_ufrag, LINE, ufrag)
        init = '{"candidate":"%s","usernameFragment":"%s"}'
        for ufrag in ("", " ", "a b", "a\\u00a0b"):
            self.assertRaises(BadCandidate, line_from_json, init % (LINE, ufrag))
        for line in (line_with_ufrag(LINE, "a\x1cb"), line_from_json(init % (LINE, "a\\u001cb"))):
            self.assertEqual(line_fields(line).ufrag, "a\x1cb")


class Surrogates(unittest.IsolatedAsyncioTestCase):
    def test_each_call_with_a_text(self) -> None:
        """NotUtf8 is an IceError and a ValueError; UnicodeEncodeError, which has the text, would be only the second."""
        agent, pass_, bad = an_agent(), "p" * 22, "a\ud800cd"
        calls: list[Callable[[str], object]] = [
            agent.add_remote_candidate, agent.invalidate_candidate, agent.find_pair_for_equivalent_remote_candidate, line_refusal,
            line_fields, line_name, has_mdns_name, line_to_json, line_from_json, CandidateAttribute.from_sdp,
            lambda text: line_with_ufrag(text, "efgh"), lambda text: line_with_ufrag(LINE, text),
            lambda text: line_with_address(text, "192.0.2.1"), lambda text: default_local_preference(text, 0)]
        for call in calls:
            for text in SURROGATES:
                with self.assertRaises(NotUtf8) as error:
                    call(text)
                self.assertIsInstance(error.exception, (IceError, ValueError))
        takers: list[Callable[[IceCreds], object]] = [
            IceAgent, agent.set_local_credentials, agent.set_remote_credentials, lambda creds: agent.ice_restart(creds, True)]
        for set_creds in takers:
            for creds in (IceCreds(bad, pass_), IceCreds("abcd", pass_ + "\udfff")):
                with self.assertRaises(NotUtf8) as error:
                    set_creds(creds)
                self.assertNotIn("pppp", str(error.exception))
                self.assertIsNone(error.exception.__context__)
        for name in ("username", "realm", "nonce", "software"):
            with self.assertRaises(NotUtf8):
                write_message(StunMethod.BINDING, StunClass.REQUEST, bytes(12), **{name: bad})  # type: ignore[arg-type]
        with self.assertRaises(NotUtf8):
            write_message(StunMethod.BINDING, StunClass.FAILURE, bytes(12), error=(400, bad))

    async def test_a_connection(self) -> None:
        connection = Connection(True, addresses=["127.0.0.1"], stun_server=("\ud800", 3478))
        await connection.gather_candidates()
        self.assertEqual([candidate.type for candidate in connection.local_candidates], ["host"])
        for text in SURROGATES + [LINE.replace("192.0.2.1", "\ud800.local")]:
            await connection.add_remote_candidate(text)
        self.assertEqual(connection.remote_candidates, [])
        with self.assertRaises(NotUtf8):
            connection.local_username = "abc\ud800"
        with self.assertRaises(NotUtf8):
            connection.local_password = "p" * 22 + "\ud800"
        for username, password in (("abc\ud800", "p" * 22), ("abcd", "p" * 22 + "\ud800"), ("u" * 600, "p" * 22), ("abcd", "p"), ("", ""),
                                   ("a\0bc", "p" * 22), ("ab cd", "p" * 22)):
            connection.remote_username, connection.remote_password = username, password
            with self.assertRaises(ConnectionError):
                await connection.connect()
        await connection.close()


HOSTILE = [
    "", "candidate:", "candidate: 1 1 udp 1 1.2.3.4 5 typ host", "candidate:\0 1 udp 1 1.2.3.4 5 typ host", "x" * 10**6,
    "candidate:1 1 udp 1 x.local 5 typ host", "candidate:1 1 udp 1 " + "a." * 50000 + "local 5 typ host",
    "candidate:1 1 udp 1 " + "a" * 300 + ".local 5 typ host", "candidate:1 1 udp 1 ..local 5 typ host",
    "candidate:1 1 udp 1 \\.local 5 typ host", "candidate:1 1 udp 1 é.local 5 typ host",
    "candidate:1 1 udp 1 1.2.3.4 5 typ host " + "k v " * 250000, "candidate:1 " + "9" * 10000 + " udp 1 1.2.3.4 5 typ host",
    "candidate:1 1 udp 1 ::1%lo 5 typ host", "candidate:1 1 udp 1 1.2.3.4 5 typ host raddr",
    "candidate:1 1 udp 1 1.2.3.4 5 typ host rport x", "candidate:1 1 udp 1 1.2.3.4 5 typ host generation ²",
    "candidate:1 1 udp 1 0.0.0.0 0 typ host", "candidate:1 1 udp 1 ff02::1 5 typ host",
    "[" * 100000, '{"candidate":"\\ud800"}', '{"candidate":"candidate:1 1 udp 1 1.2.3.4 5 typ host","usernameFragment":"\\ud800"}']


class Hostile(unittest.IsolatedAsyncioTestCase):
    async def test_texts_raise_only_errors_of_the_library(self) -> None:
        calls: list[Callable[[str], object]] = [
            line_refusal, line_fields, line_name, line_from_json, line_to_json, an_agent().add_remote_candidate,
            CandidateAttribute.from_sdp, lambda text: line_with_address(text, "192.0.2.1")]
        for text in HOSTILE + SURROGATES:
            for call in calls:
                start = time.process_time()
                try:
                    call(text)
                except IceError as error:
                    self.assertIsInstance(error, ValueError)
                self.assertLess(time.process_time() - start, 0.5 * PATIENCE, text[:40])

    async def test_a_connection_leaves_them_out_and_connects(self) -> None:
        a, b = agent(True), agent(False)
        await gather(a, b)
        for one in (a, b):
            for text in HOSTILE + SURROGATES:
                start = time.process_time()
                await one.add_remote_candidate(text)
                self.assertLess(time.process_time() - start, 0.5 * PATIENCE, text[:40])
        await add_candidates(a, b)
        await within(asyncio.gather(a.connect(), b.connect()), 5)
        await talk(a, b)
        await close(a, b)


class Connections(unittest.IsolatedAsyncioTestCase):
    async def test_a_connection_says_what_its_agent_has(self) -> None:
        connection = Connection(True, addresses=["127.0.0.1"])
        await connection.gather_candidates()
        lines = [space.join(WORDS[:5] + [str(100 + index)] + WORDS[6:]) + " 1 udp 1 9.9.9.9 5 typ host"
                 for index, space in enumerate(SPACES)]
        for line in lines + [LINE.replace("candidate:7", "candidate:" + foundation) for foundation in ("a\x1cb", "f" * 33, "é", "a-b")]:
            await connection.add_remote_candidate(line)
        listed = [CandidateAttribute.from_sdp(line) for line in connection.agent.remote_candidates()]
        self.assertEqual(connection.remote_candidates, listed)
        self.assertEqual([(candidate.host, candidate.port) for candidate in listed], [("192.0.2.1", 100 + n) for n in range(len(SPACES))])
        await connection.add_remote_candidate(LINE.replace("candidate:7", "candidate:" + "f" * 32))
        self.assertEqual(len(connection.remote_candidates), len(SPACES) + 1)
        for candidate in connection.remote_candidates:
            ipaddress.ip_address(candidate.host)
        await connection.close()


def candidate_line_of(agent: IceAgent, address: SocketAddress) -> str:
    """The text of the local candidate at this address."""
    return next(fields.text for fields in agent.local_fields() if fields.address == address)


if __name__ == "__main__":
    unittest.main()
