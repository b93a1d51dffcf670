// STUN messages: the samples of RFC 5769, HMAC-SHA1 as in RFC 2202, responses of a server, and each attribute, written and read.
import assert from "node:assert/strict";
import { createHmac } from "node:crypto";
import { test } from "node:test";
import * as ice from "is-ice";
import { hex, pair } from "./support.js";

// RFC 5769, sections 2.1 to 2.3. Their SOFTWARE has type 0x8022, which is skipped.
const PASSWORD = "VOkJxbRl1RmTxUk/WvJxBt";
const ID = hex("b7e7a701bc34d686fa87dfae");
const REQUEST = hex("000100582112a442b7e7a701bc34d686fa87dfae802200105354554e207465737420636c69656e74002400046e0001ff80290008932ff9b1"
  + "51263b36000600096576746a3a68367659202020000800149aeaa70cbfd8cb56781ef2b5b2d3f249c1b571a280280004e57a3bcf");
const V4 = hex("0101003c2112a442b7e7a701bc34d686fa87dfae8022000b7465737420766563746f7220002000080001a147e112a643"
  + "000800142b91f599fd9e90c38c7489f92af9ba53f06be7d780280004c07d4c96");
const V6 = hex("010100482112a442b7e7a701bc34d686fa87dfae8022000b7465737420766563746f7220002000140002a1470113a9faa5d3f179bc25f4b5bed2b9d9"
  + "00080014a382954e4be67bf11784c97c8292c275bfe3ed4180280004c8fb0b4c");
// Responses of a server to a request without credentials: mapped to 192.0.2.1:32853, and 401 "no".
const PLAIN = hex("0101000c2112a442b7e7a701bc34d686fa87dfae002000080001a147e112a643");
const FAILED = hex("0111000c2112a442b7e7a701bc34d686fa87dfae00090006000004016e6f0000");
const MAPPED = { address: "192.0.2.1", port: 32853 };

test("the samples of RFC 5769 are read and verified", () => {
  const request = ice.readMessage(REQUEST, { strict: true });
  assert.deepEqual([request.method, request.class, request.priority, request.username], ["binding", "request", 0x6e0001ff, "evtj:h6vY"]);
  assert.deepEqual([request.iceControlled, request.iceControlling, request.useCandidate], [0x932ff9b151263b36n, null, false]);
  assert.deepEqual([request.hasIntegrity, request.hasFingerprint, request.mappedAddress, request.error], [true, true, null, null]);
  assert.deepEqual(request.transaction, ID);
  assert.deepEqual(ice.readMessage(V4).mappedAddress, MAPPED);
  assert.deepEqual(ice.readMessage(V6).mappedAddress, { address: "2001:db8:1234:5678:11:2233:4455:6677", port: 32853 });
  for (const message of [REQUEST, V4, V6]) {
    assert.ok(ice.verifyMessage(message, PASSWORD) && !ice.verifyMessage(message, "another"));
    assert.ok(ice.isStun(message) && !ice.isStun(message.subarray(1)));
  }
});

test("whose request it is", () => {
  assert.deepEqual(ice.stunUsername(REQUEST), { receiver: "evtj", sender: "h6vY" });
  assert.equal(ice.stunUsername(V4), null);
  assert.throws(() => ice.stunUsername(new Uint8Array(3)), { code: "Unparsed" });
  assert.deepEqual(ice.usernameParts("é:b:c"), { receiver: "é", sender: "b:c" });
  assert.equal(ice.usernameParts("a:"), null);
  const [alice, bob] = pair();
  alice.handleTimeout(0);
  const fragments = { receiver: bob.localCredentials.ufrag, sender: alice.localCredentials.ufrag };
  assert.deepEqual(ice.stunUsername(alice.pollTransmit().contents), fragments);
  alice.close();
  bob.close();
});

test("a server's response", () => {
  const request = ice.bindingRequest(ID);
  assert.equal(request.length, 28);
  assert.deepEqual(ice.readMessage(request).transaction, ID);
  assert.deepEqual(ice.bindingResponse(ID, PLAIN), { mapped: MAPPED });
  assert.deepEqual(ice.bindingResponse(ID, FAILED), { error: { code: 401, reason: "no" } });
  for (const other of [request, REQUEST, new Uint8Array(40), new Uint8Array()]) assert.equal(ice.bindingResponse(ID, other), null);
  assert.equal(ice.bindingResponse(ice.newTransaction(), PLAIN), null);
  assert.throws(() => ice.bindingRequest(new Uint8Array(11)), RangeError);
  assert.throws(() => ice.readMessage(PLAIN, { strict: true }), { code: "Unparsed" });
  assert.throws(() => ice.readMessage(new Uint8Array(19)), { code: "Unparsed" });
});

test("each attribute is written and read", () => {
  const v6 = { address: "2001:db8::5", port: 9 };
  const message = {
    method: "allocate", class: "failure", transaction: ID, priority: 0xffffffff, useCandidate: true, iceControlled: (1n << 64n) - 1n,
    iceControlling: 5n, mappedAddress: MAPPED, peerAddress: v6, relayedAddress: MAPPED, error: { code: 438, reason: "Stale Nonce" },
    lifetime: 600, channelNumber: 0x4000, networkCost: { id: 7, cost: 10 }, nomination: 3, username: "a:b", realm: "example.org",
    nonce: "nönce", software: "test", data: Uint8Array.of(0, 255, 128), requestedTransport: 255, requestedFamily: 6,
  };
  const written = ice.writeMessage(message, PASSWORD), read = ice.readMessage(written);
  assert.deepEqual(read, { ...message, hasIntegrity: true, hasFingerprint: true });
  assert.ok(ice.verifyMessage(written, new TextEncoder().encode(PASSWORD)));
  assert.deepEqual(ice.writeMessage(read, PASSWORD), written);
  const least = ice.readMessage(ice.writeMessage({ method: "binding", class: "indication", transaction: ID }));
  assert.ok(Object.values(least).filter((value) => value === null).length === 18 && !least.hasIntegrity);
  const long = ice.writeMessage({ ...message, data: new Uint8Array(60000).fill(9) });
  assert.equal(ice.readMessage(long).data.length, 60000);
});

test("an Allocate request has a transport and a family (RFC 8656, sections 18.6 and 18.7)", () => {
  const request = { method: "allocate", class: "request", transaction: ID };
  for (const [requestedFamily, number] of [[4, 1], [6, 2]]) {
    const written = ice.writeMessage({ ...request, requestedTransport: 17, requestedFamily });
    assert.deepEqual(written.subarray(20, 36), Uint8Array.of(0, 0x17, 0, 4, number, 0, 0, 0, 0, 0x19, 0, 4, 17, 0, 0, 0));
    const read = ice.readMessage(written);
    assert.deepEqual([written.length, read.requestedTransport, read.requestedFamily], [44, 17, requestedFamily]);
  }
  const plain = ice.readMessage(ice.writeMessage(request));
  assert.deepEqual([plain.requestedTransport, plain.requestedFamily], [null, null]);
});

test("messages that cannot be written", () => {
  const message = { method: "binding", class: "request", transaction: ID };
  assert.throws(() => ice.writeMessage({ ...message, method: "other" }), { code: "BadMessage" });
  assert.throws(() => ice.writeMessage({ ...message, error: { code: 200, reason: "" } }), { code: "BadMessage" });
  assert.throws(() => ice.writeMessage({ ...message, username: "x".repeat(509) }), { code: "MessageTooLong" });
  assert.throws(() => ice.writeMessage({ ...message, realm: "\udc00" }), { code: "NotUtf8" });
  assert.throws(() => ice.writeMessage({ ...message, priority: 2 ** 32 }), RangeError);
  assert.throws(() => ice.writeMessage({ ...message, channelNumber: 65536 }), RangeError);
  assert.throws(() => ice.writeMessage({ ...message, requestedTransport: 256 }), RangeError);
  assert.throws(() => ice.writeMessage({ ...message, requestedFamily: 5 }), { code: "BadAddress" });
  for (const changed of [{ method: null }, { method: "bind" }, { class: "answer" }]) {
    assert.throws(() => ice.writeMessage({ ...message, ...changed }), TypeError);
  }
});

test("HMAC-SHA1 (RFC 2202, section 3, and node:crypto)", () => {
  const text = (bytes) => Buffer.from(bytes).toString("hex");
  assert.equal(text(ice.hmacSha1("Jefe", Buffer.from("what do ya want for nothing?"))), "effcdf6ae5eb2fa2d27416d5f184df9c259a7c79");
  for (const length of [0, 63, 64, 65, 5000]) {
    const key = new Uint8Array(length).fill(3), bytes = new Uint8Array(length + 1).fill(length);
    assert.equal(text(ice.hmacSha1(key, bytes)), createHmac("sha1", key).update(bytes).digest("hex"));
  }
});
