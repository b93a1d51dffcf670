// The page's network and the simulator `lab` play the same sessions: packet for packet, with the same times.
import assert from "node:assert/strict";
import { spawnSync } from "node:child_process";
import { test } from "node:test";
import { fileURLToPath } from "node:url";
import { Session } from "../src/session.js";
import { DEFAULTS } from "../src/settings.js";
import { ice, skip } from "./library.js";

// Without jitter, and with a fixed pattern of loss, since the two draw from other random sources.
const NETWORKS = {
  "two homes": {},
  "no NAT": { natA: "none", natB: "none", delay: 100 },
  "a NAT on one side": { natA: "none", natB: "restricted", delay: 25 },
  "full cones, the original's profile": { natA: "cone", natB: "cone", profile: "original" },
  "both symmetric, with relays": { natA: "symmetric", natB: "symmetric", turnA: true, turnB: true },
  "both symmetric, one relay": { natA: "symmetric", natB: "symmetric", turnB: true, delay: 70 },
  "a role conflict": { roleB: "controlling" },
  "four interfaces each": { deadA: 3, deadB: 3, delay: 15 },
  "renomination, slow signaling": { renomination: true, signaling: 300 },
  "loss: A's third and fourth packets, and what B gets first": { drops: { A: { up: [2, 3] }, B: { down: [1, 2] } }, until: 4000 },
  "loss of responses": { natA: "none", natB: "none", drops: { A: { down: [2, 3] }, B: { up: [2, 4, 5] } }, until: 4000 },
  "a long session": { until: 20_000 },
};

const networks = Object.values(NETWORKS).map((changes) => ({ ...DEFAULTS, until: 1500, ...changes }));
const python = process.env.PYTHON ?? "python3";
const lab = skip ? { status: 3, stderr: skip } : spawnSync(python, [fileURLToPath(new URL("lab_numbers.py", import.meta.url))], {
  input: JSON.stringify(networks), encoding: "utf8", maxBuffer: 1 << 28 });
const why = lab.status === 0 ? false : lab.status === 3 ? lab.stderr.trim() : false;

/** What the page plays of a network, with the tie-breakers of lab: what was sent, and when checks were answered and paths selected. */
function played({ until, ...settings }, { A, B }, waitsLast) {
  const session = new Session({ ...settings, waitsLast, ties: { A: BigInt(A), B: BigInt(B) } }, [], ice);
  session.runTo(until);
  const own = session.tracks.filter((it) => it.contents);
  const responses = (side) => own.filter((it) => it.side !== side && it.message.class === "success" && it.taken?.accepted);
  const answered = (side) => responses(side)[0]?.taken.at ?? null;
  const selected = (side) => session.events.find((it) => it.side === side && it.what === "nominatedSend")?.at ?? null;
  const isPast = (it) => it.end && it.end.at <= until;
  return {
    packets: own.map((it) => [it.side, it.sent, it.taken?.at ?? null, isPast(it) ? it.end.why : null]),
    answered: { A: answered("A"), B: answered("B") }, selected: { A: selected("A"), B: selected("B") },
  };
}

const sorted = (packets) => packets.map((it) => JSON.stringify(it)).sort();

test("the simulator ran", { skip: why }, () => assert.equal(lab.status, 0, lab.stderr));

for (const [place, name] of Object.keys(NETWORKS).entries()) {
  test(`as in lab: ${name}`, { skip: why }, () => {
    const theirs = JSON.parse(lab.stdout)[place], ours = played(networks[place], theirs.ties, true);
    assert.deepEqual(ours.selected, theirs.selected);
    assert.deepEqual(ours.answered, theirs.answered);
    assert.equal(ours.packets.length, theirs.packets.length);
    assert.deepEqual(sorted(ours.packets), sorted(theirs.packets));
    // The page itself waits until the earliest time, as README's loop does: later checks come sooner, and the times below are the same.
    const page = played(networks[place], theirs.ties, false);
    assert.deepEqual([page.answered, page.selected], [theirs.answered, theirs.selected]);
  });
}
