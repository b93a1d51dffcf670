// A wait longer than this, in ms, is cut; so much of it is drawn at each end, and the break itself takes so many pixels.
const WAIT = 90, MARGIN = 12, BREAK = 22;

/** Converts between simulated time and the diagram's height. Time goes down, and long waits are cut. */
export class Scale {
  /** The waits that are cut, in order: { from, to, y }, where `y` is the place of `from`. */
  cuts = [];

  constructor(perMs) {
    this.perMs = perMs;
  }

  /** Cuts the wait between two times, if it is long enough. A cut that nothing follows is made longer. `since`: the last time anything moved. */
  wait(since, until) {
    const last = this.cuts.at(-1), from = last && since < last.to + MARGIN ? last.from : since + MARGIN, to = until - MARGIN;
    if (to - from < WAIT - 2 * MARGIN) return;
    if (last?.from === from) last.to = Math.max(last.to, to);
    else this.cuts.push({ from, to, y: this.y(from) });
  }

  /** The place of a time. */
  y(time) {
    const cut = this.#last((it) => it.from <= time);
    if (!cut) return time * this.perMs;
    if (time < cut.to) return cut.y + (BREAK * (time - cut.from)) / (cut.to - cut.from);
    return cut.y + BREAK + (time - cut.to) * this.perMs;
  }

  /** The time at a place. */
  time(y) {
    const cut = this.#last((it) => it.y <= y);
    if (!cut) return y / this.perMs;
    if (y < cut.y + BREAK) return cut.from + ((y - cut.y) / BREAK) * (cut.to - cut.from);
    return cut.to + (y - cut.y - BREAK) / this.perMs;
  }

  #last(holds) {
    let low = 0, high = this.cuts.length;
    while (low < high) {
      const middle = (low + high) >> 1;
      if (holds(this.cuts[middle])) low = middle + 1;
      else high = middle;
    }
    return this.cuts[low - 1];
  }

  /** Draws with so many pixels for a millisecond. */
  zoom(perMs) {
    const { cuts } = this;
    this.cuts = [];
    this.perMs = perMs;
    for (const { from, to } of cuts) this.cuts.push({ from, to, y: this.y(from) });
  }
}

export { BREAK };
