/** The listeners of events. */

export class Events {
  #listeners

  /** @param {string[]} events their words */
  constructor(...events) {
    this.#listeners = new Map(events.map((event) => [event, new Set()]))
  }

  /**
   * Adds a listener.
   * @param {string} event @param {(news: any) => void} listener
   * @returns {() => void} removes the listener
   * @throws {TypeError} there is no such event
   */
  on(event, listener) {
    const listeners = this.#listeners.get(event)
    if (listeners === undefined) {
      throw new TypeError(`there is no event ${event}; the events are ${[...this.#listeners.keys()].join(", ")}`)
    }
    listeners.add(listener)
    return () => listeners.delete(listener)
  }

  /** Calls the listeners of an event with its news. */
  emit(event, news) {
    for (const listener of [...this.#listeners.get(event)]) {
      try {
        listener(news)
      } catch (fault) {
        // A listener's error becomes an uncaught error of the page. The connection stays open.
        queueMicrotask(() => { throw fault })
      }
    }
  }
}
