/** Storages of a browser. */

/** The part of a browser's storage that the library uses. */
export class Storage {
  /** @param {Storage} [other] one to begin with a copy of */
  constructor(other) {
    this.texts = new Map(other?.texts)
  }

  get length() {
    return this.texts.size
  }

  key(place) {
    return [...this.texts.keys()][place] ?? null
  }

  getItem(key) {
    return this.texts.get(key) ?? null
  }

  setItem(key, text) {
    this.texts.set(key, text)
  }

  removeItem(key) {
    this.texts.delete(key)
  }

  /** Returns a copy, as for a client at another address of the same server. */
  copyFor(address) {
    const copy = new Storage()
    for (const [key, text] of this.texts) copy.setItem(key.replace(/[0-9.]+:[0-9]+/, address), text)
    return copy
  }
}

/** A storage that rejects long texts. */
export class SmallStorage extends Storage {
  setItem(key, text) {
    if (text.length > 1000) throw new Error("QuotaExceededError")
    super.setItem(key, text)
  }
}

/** The locks of a browser. `end` ends a tab, which frees its locks. */
export class Locks {
  #held = new Map()

  /** Returns what a tab has as `navigator.locks`. */
  of(tab) {
    return { request: (name, { ifAvailable }, whenLocked) => this.#request(tab, name, ifAvailable, whenLocked) }
  }

  end(tab) {
    for (const [name, holder] of this.#held) if (holder === tab) this.#held.delete(name)
  }

  async #request(tab, name, ifAvailable, whenLocked) {
    if (!ifAvailable) throw new Error("only locks that are available are asked for")
    await null
    if (this.#held.has(name)) return whenLocked(null)
    this.#held.set(name, tab)
    await whenLocked({ name })
    if (this.#held.get(name) === tab) this.#held.delete(name)
  }
}
