/**
 * The stories that the page tells. `until`: when the session is told, in ms, and the page pauses. `settings` and `actions` are as in settings.js;
 * `speed`: a power of two of real time.
 */
export const STORIES = [
  {
    id: "two-homes", title: "Two homes", until: 420, speed: -3,
    says: "Each home has a router that lets in only answers. B's first check is turned away at A's, but on its "
      + "way out it opens B's own router for A.",
    settings: {}, actions: [],
  },
  {
    id: "both-symmetric", title: "Both symmetric", until: 620, speed: -3,
    says: "Each router uses another port for every destination, so the addresses that the agents tell each "
      + "other lead nowhere. The relay carries them.",
    settings: { natA: "symmetric", natB: "symmetric", turnA: true, turnB: true }, actions: [],
  },
  {
    id: "bad-wire", title: "A bad wire", until: 1600, speed: -2,
    says: "Four packets in ten are lost, and the others come late. Checks are sent again, until one gets through, and its answer too.",
    settings: { natA: "none", delay: 60, jitter: 30, loss: 40, seed: 3 }, actions: [],
  },
  {
    id: "path-dies", title: "The path dies", until: 14000, speed: 1,
    says: "After two seconds the direct line dies without a word. Nobody is told. Checks on it get no answer, those on the relay do: "
      + "within seconds both agents move to the relay.",
    settings: { natB: "cone", turnB: true }, actions: [{ at: 2000, do: "cutAB", value: 1 }, { at: 2000, do: "cutBA", value: 1 }],
  },
  {
    id: "change-of-network", title: "Wifi to mobile", until: 3000, speed: -2,
    says: "A leaves the house: its wifi goes, and mobile carries on at once. An ICE restart follows, and both agree on the mobile path.",
    settings: { mobileA: true, seed: 2 }, actions: [{ at: 2000, do: "wifi", value: 0 }, { at: 2050, do: "restart" }],
  },
  {
    id: "role-conflict", title: "A role conflict", until: 480, speed: -3,
    says: "Both believe that they lead. The one with the lesser tie-breaker gets a 487, Role Conflict, and follows.",
    settings: { roleB: "controlling", seed: 3 }, actions: [],
  },
  {
    id: "ten-interfaces", title: "Ten interfaces", until: 420, speed: -3,
    says: "VPNs, containers, virtual machines: ten interfaces on each side make a hundred pairs, of which one "
      + "works. The agents find it in a third of a second.",
    settings: { deadA: 9, deadB: 9 }, actions: [],
  },
  {
    id: "flood", title: "A flood", until: 1900, speed: -2,
    says: "An attacker sends 120 packets in a second: forged, replayed, and rubbish. What is forged changes "
      + "nothing, what replays bring is bounded, and the path stays.",
    settings: { natB: "cone" }, actions: [{ at: 600, do: "flood" }],
  },
];
