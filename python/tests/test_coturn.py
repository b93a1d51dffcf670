"""With coturn as the server: TURN messages that the module writes and reads, and connections through relays over UDP, TCP and TLS."""

from __future__ import annotations

import asyncio
import contextlib
import hashlib
import os
import re
import shutil
import socket
import ssl
import subprocess
import tempfile
import time
import unittest
from typing import Any

from is_ice import SocketAddress
from is_ice.connection import Connection, TransportPolicy
from is_ice.gather import LoopEvent
from is_ice.stun import StunClass, StunMessage, StunMethod, StunText, write_message
from pairs import NOBODY, PATIENCE, add_candidates, close, gather, join, talk, until, within

UDP = 17
KEY = hashlib.md5(b"user:example.org:secret").digest()  # RFC 8489, section 9.2.2
Field = int | str | bytes | SocketAddress | None


def free_port(host: str) -> int:
    """Returns a UDP port of this host that nothing is bound to now."""
    with socket.socket(socket.AF_INET6 if ":" in host else socket.AF_INET, socket.SOCK_DGRAM) as probe:
        probe.bind((host, 0))
        return int(probe.getsockname()[1])


class Coturn:
    """coturn on a loopback address, with the long-term credentials of `KEY`. Over UDP and TCP; over TLS if there is a certificate."""

    def __init__(self, folder: str, host: str, *more: str, certificate: str | None = None) -> None:
        self.address = host, free_port(host)
        self.tls_port = free_port(host)
        arguments = [
            "-n", "-L", host, "-E", host, "-p", str(self.address[1]), "--no-dtls", "--no-cli", "-a", "-r", "example.org", "-u",
            "user:secret", "--allow-loopback-peers", "--pidfile", f"{folder}/pid", "--db", f"{folder}/db", "--log-file", "stdout",
            "--simple-log", "-m", "1"]
        if certificate:
            arguments += ["--tls-listening-port", str(self.tls_port), "--cert", certificate, "--pkey", certificate]
        else:
            arguments.append("--no-tls")
        self.log = open(f"{folder}/log", "wb")
        self.process = subprocess.Popen(["turnserver", *arguments, *more], stdout=self.log, stderr=self.log)

    def url(self, scheme: str = "turn", transport: str = "udp") -> dict[str, str]:
        """The server as a value of `iceServers`."""
        at = SocketAddress(self.address[0], self.tls_port if scheme == "turns" else self.address[1])
        return {"urls": f"{scheme}:{at}?transport={transport}", "username": "user", "credential": "secret"}

    def is_ready(self) -> bool:
        """Whether it accepts connections, as it does once it serves datagrams."""
        with socket.socket(socket.AF_INET6 if ":" in self.address[0] else socket.AF_INET) as probe:
            return probe.connect_ex(self.address) == 0

    def stop(self) -> None:
        """Ends the server."""
        self.process.kill()
        self.process.wait()
        self.log.close()


class Client:
    """A socket at the server. Each request has an ID of its own, and is sent again until its response comes."""

    def __init__(self, server: Coturn) -> None:
        self.server, host = server, server.address[0]
        self.socket = socket.socket(socket.AF_INET6 if ":" in host else socket.AF_INET, socket.SOCK_DGRAM)
        self.socket.bind((host, 0))
        self.socket.settimeout(0.2)
        self.credentials: dict[str, str] = {}

    def received(self) -> bytes:
        """Returns the next datagram, or nothing after a moment."""
        with contextlib.suppress(TimeoutError, ConnectionRefusedError):
            return self.socket.recv(2048)
        return b""

    def ask(self, method: StunMethod, key: bytes | None = KEY, **fields: Field) -> StunMessage:
        """Sends a request, and returns its response."""
        transaction, until = os.urandom(12), time.monotonic() + 20
        request = write_message(
            method, StunClass.REQUEST, transaction, key=key, **(self.credentials if key else {}), **fields)  # type: ignore[arg-type]
        while time.monotonic() < until:
            self.socket.sendto(request, self.server.address)
            while data := self.received():
                message = StunMessage(data)
                if message.transaction == transaction:
                    return message
        raise AssertionError("coturn does not answer")

    def take_challenge(self, response: StunMessage) -> None:
        """Takes the realm and the nonce of an error response."""
        self.credentials = {
            "username": "user", "realm": response.text(StunText.REALM) or "", "nonce": response.text(StunText.NONCE) or ""}


@unittest.skipUnless(shutil.which("turnserver"), "coturn is not installed")
class WithCoturn(unittest.TestCase):
    """What coturn answers to the messages that the module writes."""

    def setUp(self) -> None:
        self.folder = self.enterContext(tempfile.TemporaryDirectory())

    def client(self, host: str = "127.0.0.1") -> Client:
        """A client with the challenge of the server that it starts."""
        server = Coturn(self.folder, host)
        self.addCleanup(server.stop)
        client = Client(server)
        self.addCleanup(client.socket.close)
        challenge = client.ask(StunMethod.ALLOCATE, None, requested_transport=UDP)
        self.assertEqual((challenge.class_, challenge.error_code), (StunClass.FAILURE, 401))
        client.take_challenge(challenge)
        return client

    def test_an_allocation(self) -> None:
        """Allocate, CreatePermission, Send and Data indications, ChannelBind, Refresh."""
        client = self.client()
        allocated = client.ask(StunMethod.ALLOCATE, requested_transport=UDP, requested_family=4, lifetime=600)
        self.assertEqual((allocated.class_, allocated.lifetime, allocated.verify(KEY)), (StunClass.SUCCESS, 600, True))
        self.assertEqual(allocated.mapped_address, SocketAddress(*client.socket.getsockname()))
        relayed = allocated.relayed_address
        assert relayed is not None
        with socket.socket(socket.AF_INET, socket.SOCK_DGRAM) as peer:
            peer.bind(("127.0.0.1", 0))
            peer.settimeout(5)
            at = SocketAddress(*peer.getsockname())
            self.assertEqual(client.ask(StunMethod.CREATE_PERMISSION, peer_address=at).class_, StunClass.SUCCESS)
            client.socket.sendto(
                write_message(StunMethod.SEND, StunClass.INDICATION, os.urandom(12), peer_address=at, data=b"out"), client.server.address)
            data, source = peer.recvfrom(100)
            self.assertEqual((data, SocketAddress(*source)), (b"out", relayed))
            peer.sendto(b"in", source)
            told = StunMessage(client.received())
            self.assertEqual((told.method, told.class_), (StunMethod.DATA, StunClass.INDICATION))
            self.assertEqual((told.peer_address, told.value_of_data), (at, b"in"))
            bound = client.ask(StunMethod.CHANNEL_BIND, channel_number=0x4000, peer_address=at)
            self.assertEqual((bound.class_, bound.verify(KEY)), (StunClass.SUCCESS, True))
            peer.sendto(b"more", source)
            self.assertEqual(client.received(), bytes.fromhex("40000004") + b"more")
        freed = client.ask(StunMethod.REFRESH, lifetime=0)
        self.assertEqual((freed.class_, freed.lifetime), (StunClass.SUCCESS, 0))

    def test_an_ipv6_address(self) -> None:
        """REQUESTED-ADDRESS-FAMILY: the relayed address has the family that was asked for."""
        try:
            client = self.client("::1")
        except OSError:
            self.skipTest("there is no IPv6")
        allocated = client.ask(StunMethod.ALLOCATE, requested_transport=UDP, requested_family=6)
        self.assertEqual(allocated.class_, StunClass.SUCCESS)
        assert allocated.relayed_address is not None
        self.assertRegex(allocated.relayed_address.ip, re.compile("^::1$"))

    def test_what_the_server_refuses(self) -> None:
        """No transport: 400. SOFTWARE, whose type is that of RESERVATION-TOKEN: no success."""
        client = self.client()
        self.assertEqual(client.ask(StunMethod.ALLOCATE).error_code, 400)
        self.assertEqual(client.ask(StunMethod.BINDING, None, software="is").error_code, 420)


@unittest.skipUnless(shutil.which("turnserver"), "coturn is not installed")
class Connections(unittest.IsolatedAsyncioTestCase):
    """Connections that have only relayed candidates."""

    async def server(self, host: str = "127.0.0.1", *more: str, certificate: str | None = None) -> Coturn:
        """Starts a server, and waits until it serves."""
        server = Coturn(self.enterContext(tempfile.TemporaryDirectory()), host, *more, certificate=certificate)
        self.addCleanup(server.stop)
        await until(server.is_ready)
        return server

    def side(self, controlling: bool, server: dict[str, str], host: str = "127.0.0.1", **more: Any) -> Connection:
        """A connection that has only relayed candidates."""
        return Connection(controlling, addresses=[host], transport_policy=TransportPolicy.RELAY, servers=[server], **more)

    async def joined(self, *servers: dict[str, str], host: str = "127.0.0.1", **more: Any) -> tuple[Connection, Connection]:
        """Two connections, of these servers, after a talk."""
        a, b = self.side(True, servers[0], host, **more), self.side(False, servers[-1], host, **more)
        await within(join(a, b), 10)
        for side in (a, b):
            self.assertEqual([candidate.type for candidate in side.local_candidates], ["relay"])
        for _ in range(3):
            await talk(a, b)  # in indications, and on a channel
        return a, b

    async def test_over_udp(self) -> None:
        server = await self.server()
        for turns in (1, -1):
            a, b = await self.joined(server.url())
            self.assertEqual((a.ice_controlling, b.ice_controlling), (True, False))
            await close(*(a, b)[::turns])

    async def test_over_tcp(self) -> None:
        server = await self.server()
        for servers in ([server.url("turn", "tcp")], [server.url("turn", "tcp"), server.url()], [server.url(), server.url("turn", "tcp")]):
            a, b = await self.joined(*servers)
            await close(a, b)

    async def redirected(self, a: Connection, b: Connection, first: Coturn) -> None:
        """The server that a 300 of the first one names has the allocation: the first one may end."""
        await gather(a, b)
        first.stop()
        await add_candidates(a, b)
        await within(asyncio.gather(a.connect(), b.connect()), 10)
        await talk(a, b)
        await close(a, b)

    async def test_a_redirection(self) -> None:
        for transport in ("udp", "tcp"):
            other = await self.server()
            first = await self.server("127.0.0.1", "--alternate-server", f"127.0.0.1:{other.address[1]}")
            a, b = self.side(True, first.url("turn", transport)), self.side(False, other.url("turn", transport))
            await self.redirected(a, b, first)

    def certificate(self) -> tuple[str, str]:
        """The files of a new certificate, and of it with its key."""
        folder = self.enterContext(tempfile.TemporaryDirectory())
        subprocess.run(["openssl", "req", "-x509", "-newkey", "rsa:2048", "-nodes", "-subj", "/CN=test", "-addext",
                        "subjectAltName=IP:127.0.0.1", "-keyout", f"{folder}/key", "-out", f"{folder}/certificate"],
                       check=True, capture_output=True)
        with open(f"{folder}/both", "w") as both:
            for name in ("certificate", "key"):
                with open(f"{folder}/{name}") as part:
                    both.write(part.read())
        return f"{folder}/certificate", f"{folder}/both"

    @unittest.skipUnless(shutil.which("openssl"), "openssl is not installed")
    async def test_a_redirection_over_tls(self) -> None:
        certificate, both = self.certificate()
        other = await self.server(certificate=both)
        first = await self.server("127.0.0.1", "--tls-alternate-server", f"127.0.0.1:{other.tls_port}", certificate=both)
        tls = ssl.create_default_context(cafile=certificate)
        a, b = self.side(True, first.url("turns", "tcp"), tls=tls), self.side(False, other.url("turns", "tcp"), tls=tls)
        await self.redirected(a, b, first)

    @unittest.skipUnless(shutil.which("openssl"), "openssl is not installed")
    async def test_over_tls(self) -> None:
        certificate, both = self.certificate()
        server = await self.server(certificate=both)
        a, b = await self.joined(server.url("turns", "tcp"), tls=ssl.create_default_context(cafile=certificate))
        await close(a, b)
        c = self.side(True, server.url("turns", "tcp"))  # who does not trust the certificate
        with self.assertLogs("is_ice", "WARNING") as lines:
            await within(c.gather_candidates(), 2)
        self.assertRegex(lines.output[0], "server turns:127.0.0.1:.* certificate verify failed")
        await c.close()

    async def test_over_ipv6(self) -> None:
        try:
            server = await self.server("::1")
        except OSError:
            self.skipTest("there is no IPv6")
        for transport in ("udp", "tcp"):
            a, b = await self.joined(server.url("turn", transport), host="::1")
            self.assertEqual(a.local_candidates[0].host, "::1")
            await close(a, b)

    async def test_a_wrong_password(self) -> None:
        server = await self.server()
        for transport in ("udp", "tcp"):
            a = self.side(True, {**server.url("turn", transport), "credential": "wrong"})
            start = time.monotonic()
            with self.assertLogs("is_ice", "WARNING") as lines:
                await a.gather_candidates()
            self.assertLess(time.monotonic() - start, 2 * PATIENCE)
            self.assertRegex(lines.output[0], "server 127.0.0.1:.*401")
            self.assertEqual(a._loop._servers._streams, {})
            await a.close()

    async def test_a_refused_peer(self) -> None:
        server = await self.server("127.0.0.1", "--denied-peer-ip", "127.0.0.9")
        a = self.side(True, server.url())
        a.agent.set_max_stun_retransmits(1)
        told: list[LoopEvent] = []
        a._loop._on_gathering = told.append
        await a.gather_candidates()
        a.remote_username, a.remote_password = "abcd", "p" * 22
        await a.add_remote_candidate(NOBODY.replace("127.0.0.1", "127.0.0.9"))
        await a.add_remote_candidate(None)
        with self.assertRaisesRegex(ConnectionError, "servers: server .* 127.0.0.9.*403"):
            await within(a.connect(), 10)
        await a.close()

    async def test_an_address_that_is_gone(self) -> None:
        server = await self.server()
        a = self.side(True, server.url("turn", "tcp"))
        await a.gather_candidates()
        self.assertEqual(len(a.local_candidates), 1)
        a._loop.remove_socket(a._loop.gatherer.sockets[0])
        self.assertEqual((a.local_candidates, a._loop._servers._streams, a._loop.gatherer.is_over), ([], {}, True))
        await a.close()

    async def test_a_connection_to_the_server_that_breaks(self) -> None:
        server = await self.server()
        a, b = await self.joined(server.url("turn", "tcp"))
        event = asyncio.ensure_future(a.get_event())
        with self.assertLogs("is_ice", "WARNING") as lines:
            server.process.kill()
            await within(event, 2)  # without its candidate it has no path any more
        self.assertRegex(lines.output[0], "server 127.0.0.1:.* tcp .*lost")
        await close(a, b)


if __name__ == "__main__":
    unittest.main()
