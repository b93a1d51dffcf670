/** Simulated time, in whole milliseconds: calls in the order of their times, and those of one time in the order of their scheduling. */
export class Clock {
  now = 0;
  #queue = [];

  /** Schedules a call for this time, or for now if that is past. Returns what `cancel` takes. */
  at(time, act) {
    const due = Math.max(time, this.now);
    let low = 0, high = this.#queue.length;
    while (low < high) {
      const middle = (low + high) >> 1;
      if (this.#queue[middle].due <= due) low = middle + 1;
      else high = middle;
    }
    const made = { due, act };
    this.#queue.splice(low, 0, made);
    return made;
  }

  /** Takes back a call, if it was not made yet. */
  cancel(scheduled) {
    const place = this.#queue.indexOf(scheduled);
    if (place >= 0) this.#queue.splice(place, 1);
  }

  /** The time of the next call, or Infinity. */
  get next() {
    return this.#queue.length ? this.#queue[0].due : Infinity;
  }

  /** Makes all calls up to this time, this time included. */
  runTo(end) {
    while (this.next <= end) {
      const { due, act } = this.#queue.shift();
      this.now = due;
      act();
    }
    this.now = end;
  }
}
