"""Tests candidates as texts and as JSON, with the lines of RFC 8839 and RFC 6544, and with the documented RTCIceCandidateInit."""

import json
import unittest

from is_ice import (
    BadAddress,
    BadCandidate,
    Candidate,
    IceAgent,
    IceCreds,
    NoAgent,
    Protocol,
    SocketAddress,
    TcpType,
    candidate_line,
    default_local_preference,
    line_from_json,
    line_to_json,
    line_with_ufrag,
)

# The example of RTCIceCandidate in MDN.
LINE = "candidate:4234997325 1 udp 2043278322 192.0.2.172 44323 typ host"
HERE = SocketAddress("10.0.0.1", 1000)


class Json(unittest.TestCase):
    def test_an_init_is_read(self) -> None:
        init = {"candidate": LINE, "sdpMid": "0", "sdpMLineIndex": 0, "usernameFragment": "EsAw"}
        self.assertEqual(line_from_json(json.dumps(init)), f"{LINE} ufrag EsAw")
        self.assertEqual(line_from_json(json.dumps(init, separators=(",", ":"), sort_keys=True)), f"{LINE} ufrag EsAw")
        self.assertEqual(line_from_json(json.dumps({"candidate": LINE})), LINE)

    def test_json_is_written(self) -> None:
        init = {"candidate": LINE, "sdpMid": None, "sdpMLineIndex": 0, "usernameFragment": None}
        self.assertEqual(json.loads(line_to_json(LINE)), init)
        named = f"{LINE} ufrag EsAw"
        self.assertEqual(json.loads(line_to_json(named)), {**init, "candidate": named, "usernameFragment": "EsAw"})

    def test_json_without_a_candidate_says_what_is_wrong(self) -> None:
        ended = json.dumps({"candidate": "", "sdpMid": "0", "sdpMLineIndex": 0})
        for text, why in (("{", "not JSON"), ("[]", "not an object"), ("{}", "lacks candidate"), (ended, ": ")):
            with self.assertRaisesRegex(BadCandidate, why):
                line_from_json(text)
        with self.assertRaisesRegex(BadCandidate, "candidate:1 x"):
            line_to_json("candidate:1 x")


class Lines(unittest.TestCase):
    def test_a_gathered_candidate_has_a_line(self) -> None:
        line = candidate_line(Candidate.host(HERE, Protocol.TCP, TcpType.PASSIVE))
        self.assertEqual(line.split(" ", 1)[1], "1 tcp 1526726399 10.0.0.1 1000 typ host tcptype passive")
        with self.assertRaisesRegex(BadCandidate, "0.0.0.0"):
            candidate_line(Candidate.host(SocketAddress("0.0.0.0", 1)))
        with self.assertRaises(BadAddress):
            candidate_line(Candidate.host(HERE, Protocol.UDP, TcpType.PASSIVE))

    def test_an_agent_lists_the_tcp_type(self) -> None:
        with IceAgent(IceCreds("AAAA", "P" * 22)) as agent:
            line = agent.add_local_candidate(Candidate.relayed(SocketAddress("192.0.2.1", 9), HERE, Protocol.TCP, TcpType.SO))
            self.assertTrue(line and line.endswith(" 192.0.2.1 9 typ relay raddr 0.0.0.0 rport 0 tcptype so ufrag AAAA"))

    def test_a_line_gets_a_username_fragment(self) -> None:
        named = line_with_ufrag(LINE, "EsAw")
        self.assertEqual(named, f"{LINE} ufrag EsAw")
        self.assertEqual(line_with_ufrag(named, "9uB6"), f"{LINE} ufrag 9uB6")
        with self.assertRaises(BadCandidate):
            line_with_ufrag("candidate:1 x", "EsAw")

    def test_the_default_preference(self) -> None:
        self.assertEqual(default_local_preference(Candidate.host(HERE), 0), 65534)
        self.assertEqual(default_local_preference(Candidate.host(SocketAddress("2001:db8::1", 1)), 2), 65531)
        self.assertEqual(default_local_preference(LINE.replace("host", "srflx"), 0), 32766)
        self.assertEqual(default_local_preference(LINE, (1 << 64) - 1), 0)
        with self.assertRaises(ValueError):
            default_local_preference(LINE, -1)

    def test_the_pair_of_a_candidate_is_found(self) -> None:
        agent = IceAgent(IceCreds("AAAA", "P" * 22))
        agent.add_local_candidate(Candidate.host(HERE))
        agent.add_remote_candidate("candidate:1 1 udp 7 192.0.2.1 1 typ host")
        self.assertIsNone(agent.find_pair_for_equivalent_remote_candidate(LINE))
        agent.add_remote_candidate(LINE)
        self.assertEqual(agent.find_pair_for_equivalent_remote_candidate(LINE), agent.pairs[1])
        agent.close()
        with self.assertRaises(NoAgent):
            agent.find_pair_for_equivalent_remote_candidate(LINE)


if __name__ == "__main__":
    unittest.main()
