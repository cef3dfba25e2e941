// What is to be done, as a heap by time and order.
export class Agenda {
  #heap = []; #order = 0;
  static #isBefore(a, b) { return a.time < b.time || (a.time === b.time && a.order < b.order); }

  get first() { return this.#heap[0] ?? null; }

  add(time, act) {
    const heap = this.#heap;
    let k = heap.push({ time, order: this.#order += 1, act }) - 1;
    for (let up; k && Agenda.#isBefore(heap[k], heap[up = (k - 1) >> 1]); k = up) [heap[k], heap[up]] = [heap[up], heap[k]];
  }

  take() {
    const heap = this.#heap, first = heap[0], last = heap.pop();
    if (!heap.length) return first;
    heap[0] = last;
    for (let k = 0, next; ; k = next) {
      next = 2 * k + 1;
      if (next + 1 < heap.length && Agenda.#isBefore(heap[next + 1], heap[next])) next += 1;
      if (next >= heap.length || !Agenda.#isBefore(heap[next], heap[k])) return first;
      [heap[k], heap[next]] = [heap[next], heap[k]];
    }
  }
}
