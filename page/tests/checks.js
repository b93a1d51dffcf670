// What the tests in browsers ask the page. `browsers.py` puts it into the page before it calls its functions.
globalThis.checks = {
  /** A short digest of all packets: tests/digest.test.js has the same for Node. */
  digest() {
    let h = 0x811c9dc5;
    const add = (n) => (h = Math.imul(h ^ n, 16777619) >>> 0);
    for (const { side, sent, taken, contents } of page.session.tracks) {
      if (!contents) continue;
      add(side.charCodeAt(0));
      add(sent);
      add(taken?.at ?? 0);
      for (const byte of contents) add(byte);
    }
    return h;
  },

  /** The name that a screen reader says of an element: by label, content or title (Accessible Name and Description Computation 1.2). */
  nameOf(it) {
    const by = it.getAttribute("aria-labelledby");
    if (by) return by.split(" ").map((id) => document.getElementById(id)?.textContent ?? "").join(" ").trim();
    const own = it.getAttribute("aria-label") ?? [...(it.labels ?? [])].map((label) => label.textContent).join(" ");
    return own.trim() || it.textContent.trim() || it.title.trim();
  },

  /** What is wrong for those who use a keyboard or a screen reader. */
  faults() {
    const found = [], seen = new Set();
    for (const it of document.querySelectorAll("[id]")) {
      if (seen.has(it.id)) found.push(`two elements are #${it.id}`);
      seen.add(it.id);
    }
    for (const it of document.querySelectorAll("button, input, select, summary, [tabindex], [role=img], [role=toolbar], [role=group], nav, section")) {
      if (!checks.nameOf(it)) found.push(`no name: ${it.outerHTML.slice(0, 80)}`);
    }
    for (const it of document.querySelectorAll("label")) if (!it.control) found.push(`label of nothing: ${it.textContent}`);
    for (const it of document.querySelectorAll("[aria-labelledby], [aria-describedby]")) {
      for (const id of `${it.getAttribute("aria-labelledby") ?? ""} ${it.getAttribute("aria-describedby") ?? ""}`.trim().split(" ")) {
        if (!seen.has(id)) found.push(`no #${id}`);
      }
    }
    for (const [what, count] of [["h1", 1], ["main", 1], ["header", 1], ["nav", 1], ["[role=status]", 1]]) {
      if (document.querySelectorAll(what).length !== count) found.push(`not ${count} ${what}`);
    }
    for (const it of document.querySelectorAll("table")) if (!it.querySelector("th[scope=col]")) found.push("a table without headers");
    if (document.documentElement.lang !== "en") found.push("no language");
    return found;
  },

  /** Whether all fits: nothing is wider than the window, and the diagram has room. */
  fits() {
    const { scrollWidth, clientWidth } = document.documentElement, { height } = document.getElementById("diagram").getBoundingClientRect();
    return { over: scrollWidth - clientWidth, diagram: Math.round(height) };
  },

  /** A picture in base64 made small: 96 pixels wide. */
  async small(picture) {
    const canvas = await checks.drawn(picture, 96);
    return canvas.toDataURL("image/png").split(",")[1];
  },

  async drawn(picture, width) {
    const image = new Image();
    image.src = `data:image/png;base64,${picture}`;
    await image.decode();
    const canvas = document.createElement("canvas");
    canvas.width = width;
    canvas.height = Math.round((image.height * width) / image.width);
    const context = canvas.getContext("2d");
    context.imageSmoothingQuality = "high";
    context.drawImage(image, 0, 0, canvas.width, canvas.height);
    return canvas;
  },

  /** How much two pictures differ: the mean difference of brightness, from 0 to 255, over a grid of 32 columns. */
  async difference(one, two) {
    const grids = [];
    for (const picture of [one, two]) {
      const { width, height } = await checks.drawn(picture, 96), canvas = await checks.drawn(picture, 32);
      const rows = Math.round((height * 32) / width);
      grids.push([...canvas.getContext("2d").getImageData(0, 0, 32, rows).data].filter((_, n) => n % 4 !== 3));
    }
    const [a, b] = grids;
    return a.length === b.length ? a.reduce((sum, it, n) => sum + Math.abs(it - b[n]), 0) / a.length : 255;
  },

  /** What a button saves: the bytes, in base64. */
  async saved(id) {
    const old = URL.createObjectURL;
    let blob = null;
    URL.createObjectURL = (it) => ((blob = it), old.call(URL, it));
    HTMLAnchorElement.prototype.click = function () {};
    try {
      document.getElementById(id).click();
    } finally {
      URL.createObjectURL = old;
      delete HTMLAnchorElement.prototype.click;
    }
    const bytes = new Uint8Array(await blob.arrayBuffer());
    return btoa(Array.from(bytes, (it) => String.fromCharCode(it)).join(""));
  },
};
