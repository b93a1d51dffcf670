const SVG = "http://www.w3.org/2000/svg";

export const $ = (id) => document.getElementById(id);

/** Makes an element of SVG. */
export function svg(name, attributes = {}, ...children) {
  const made = document.createElementNS(SVG, name);
  for (const [key, value] of Object.entries(attributes)) made.setAttribute(key, value);
  made.append(...children);
  return made;
}

/** Makes an element of HTML. Texts are texts, whatever is in them. */
export function html(name, properties = {}, ...children) {
  const made = document.createElement(name), { dataset, ...own } = properties;
  for (const [key, value] of Object.entries(own)) {
    if (key.includes("-") || key === "role" || key === "for") made.setAttribute(key, value);
    else made[key] = value;
  }
  Object.assign(made.dataset, dataset);
  made.append(...children.filter((it) => it !== null && it !== undefined));
  return made;
}

export const timeText = (ms) => (ms < 1000 ? `${Math.round(ms)} ms` : `${(ms / 1000).toFixed(2)} s`);

/** Saves a file from the page. */
export function save(name, type, contents) {
  const link = html("a", { href: URL.createObjectURL(new Blob([contents], { type })), download: name });
  link.click();
  setTimeout(() => URL.revokeObjectURL(link.href), 10_000);
}
