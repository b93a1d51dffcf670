import { $ } from "./dom.js";

/** The whole diagram as a picture in SVG, with its styles in it, so that it follows light and dark wherever it is shown. */
export function pictureOf(diagram, title) {
  const { width, height } = diagram.whole(), styles = document.querySelector("style").textContent;
  const escaped = (text) => text.replace(/&/g, "&amp;").replace(/</g, "&lt;");
  const moving = new XMLSerializer().serializeToString($("moving")).replace(/<path [^>]*class="hit"[^>]*\/>|<path class="hit"[^>]*\/>/g, "");
  const heads = new XMLSerializer().serializeToString($("heads")).replace(/^<svg[^>]*>|<\/svg>$/g, "");
  const size = `width="${width}" height="${height + 70}" viewBox="0 0 ${width} ${height + 70}"`;
  return `<svg xmlns="http://www.w3.org/2000/svg" ${size} role="img" font-family="system-ui, sans-serif">
<title>${escaped(title)}</title><style>${escaped(styles)}</style>
<rect width="100%" height="100%" fill="var(--card)"/><g>${heads}</g><g transform="translate(0 70)">${moving}</g></svg>\n`;
}
