// Prints the digest of each story's packets under Node, as checks.js makes it in a browser.
//
// usage: node page/tests/digests.js
import { Session } from "../src/session.js";
import { DEFAULTS } from "../src/settings.js";
import { STORIES } from "../src/stories.js";
import { ice, skip } from "./library.js";

if (skip) throw new Error(skip);
await import("./checks.js");
const found = {};
for (const story of STORIES) {
  globalThis.page = { session: new Session({ ...DEFAULTS, ...story.settings }, story.actions, ice) };
  globalThis.page.session.runTo(story.until);
  found[story.id] = { digest: globalThis.checks.digest(), until: story.until };
}
console.log(JSON.stringify(found));
