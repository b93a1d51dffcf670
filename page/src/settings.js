/** What determines a session, with the values of a new one. A link has those that differ from the story that it names. */
export const DEFAULTS = {
  seed: 1, // of the random source: 1 to 999999
  natA: "port", // a name of NATS
  natB: "port",
  turnA: false, // a relayed address
  turnB: false,
  mobileA: false, // a second interface, on a mobile network behind a NAT of its own
  deadA: 0, // how many more interfaces lead nowhere: VPNs, containers
  deadB: 0,
  roleA: "controlling",
  roleB: "controlled",
  delay: 40, // one way, in ms
  jitter: 0, // added, at most, in ms
  loss: 0, // per cent, one way
  signaling: 50, // the delay of signaling, in ms
  profile: "modern", // or original
  renomination: false,
};

/** The numbers among them, with their ranges. */
export const RANGES = {
  seed: [1, 999999], deadA: [0, 9], deadB: [0, 9], delay: [1, 400], jitter: [0, 200], loss: [0, 90], signaling: [0, 500],
};
const CHOICES = {
  natA: ["none", "cone", "restricted", "port", "symmetric"], roleA: ["controlling", "controlled"], profile: ["modern", "original"],
};
CHOICES.natB = CHOICES.natA;
CHOICES.roleB = CHOICES.roleA;

/** What a viewer does while a session runs: the name, and whether it has a value. */
export const ACTIONS = {
  cutAB: true, cutBA: true, cutRelay: true, wifi: true, delay: true, jitter: true, loss: true, // values: 1 or 0; else numbers
  restart: false, say: false, forge: false, replay: false, flood: false,
};

function valueOf(name, words) {
  const usual = DEFAULTS[name];
  if (typeof usual === "boolean") return words === "1" ? true : words === "0" ? false : usual;
  if (CHOICES[name]) return CHOICES[name].includes(words) ? words : usual;
  const [least, most] = RANGES[name], number = Number(words);
  return words !== "" && Number.isInteger(number) && number >= least && number <= most ? number : usual;
}

function actionOf(words) {
  const [, name, value, at] = /^([a-zA-Z]+)(?:=(\d{1,6}))?@(\d{1,9})$/.exec(words) ?? [];
  if (!Object.hasOwn(ACTIONS, name ?? "") || ACTIONS[name] !== (value !== undefined)) return null;
  return { at: Number(at), do: name, ...(value === undefined ? {} : { value: Number(value) }) };
}

/**
 * The fragment of a link: the story, what differs from it, and what the viewer did. If the viewer did nothing of their own, `actions` is that
 * of the story, and the fragment has none.
 */
export function toFragment({ story, settings, actions, view = {} }) {
  const parts = [["story", story.id]];
  const usual = { ...DEFAULTS, ...story.settings };
  for (const [name, value] of Object.entries(settings)) {
    if (value !== usual[name]) parts.push([name, typeof value === "boolean" ? Number(value) : value]);
  }
  const done = actions.map((it) => `${it.do}${it.value === undefined ? "" : `=${it.value}`}@${it.at}`).join("!");
  const told = story.actions.map((it) => `${it.do}${it.value === undefined ? "" : `=${it.value}`}@${it.at}`).join("!");
  if (done !== told) parts.push(["do", done]);
  for (const [name, value] of Object.entries(view)) parts.push([name, value]);
  return parts.map(([name, value]) => `${name}=${encodeURIComponent(value).replace(/%3D/g, "=").replace(/%40/g, "@")}`).join("&");
}

/** Reads a fragment. What is not understood counts as not there, so any text gives a session. */
export function fromFragment(fragment, stories) {
  const given = new URLSearchParams(fragment.replace(/^#/, "").replace(/\+/g, "%2B"));
  const story = stories.find((it) => it.id === given.get("story")) ?? stories[0];
  const settings = { ...DEFAULTS, ...story.settings };
  for (const name of Object.keys(DEFAULTS)) {
    if (given.has(name)) settings[name] = valueOf(name, given.get(name));
  }
  const own = given.get("do")?.split("!").map(actionOf).filter(Boolean);
  return { story, settings, actions: (own ?? story.actions).toSorted((a, b) => a.at - b.at), view: Object.fromEntries(given) };
}
