// Texts can be read in light and in dark: the contrast of WCAG 2.2, sections 1.4.3 (4.5:1) and 1.4.11 (3:1).
import assert from "node:assert/strict";
import { readFileSync } from "node:fs";
import { test } from "node:test";

const [light, dark] = readFileSync(new URL("../src/style.css", import.meta.url), "utf8").match(/:root \{[^}]*\}/g)
  .map((block) => Object.fromEntries([...block.matchAll(/--([\w-]+): (#[0-9a-f]{3,6})\b/gi)].map(([, name, color]) => [name, color])));

/** The relative luminance of a color. */
function luminance(color) {
  const long = color.length === 4 ? color.replace(/[0-9a-f]/gi, "$&$&") : color;
  const linear = (it) => (it <= 0.04045 ? it / 12.92 : ((it + 0.055) / 1.055) ** 2.4);
  const [r, g, b] = [1, 3, 5].map((at) => linear(parseInt(long.slice(at, at + 2), 16) / 255));
  return 0.2126 * r + 0.7152 * g + 0.0722 * b;
}

function contrast(one, two) {
  const [low, high] = [luminance(one), luminance(two)].sort((a, b) => a - b);
  return (high + 0.05) / (low + 0.05);
}

const TEXTS = ["ink", "soft", "accent", "A", "B", "check", "nomination", "response", "failure", "media", "server", "hostile"];
for (const [name, colors] of Object.entries({ light, dark })) {
  test(`texts can be read in ${name}`, () => {
    for (const text of TEXTS) {
      for (const ground of ["card", ...(["ink", "soft"].includes(text) ? ["ground", "wash"] : [])]) {
        const found = contrast(colors[text], colors[ground]);
        assert.ok(found >= 4.5, `${text} on ${ground}: ${found.toFixed(2)}`);
      }
    }
    assert.ok(contrast(colors["on-accent"], colors.accent) >= 4.5);
    assert.ok(["checking", "connected", "completed"].every((state) => contrast("#10161c", colors[state]) >= 3));
  });
}
