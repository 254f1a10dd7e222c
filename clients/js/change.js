/** A change that this client made, from the call to the server's reply. */

import { codeOf, idOf } from "./forms.js"

/** @typedef {import("./forms.js").Name} Name */
/** @typedef {import("./forms.js").Operation} Operation */

/** A change that this client made: a creation, a put or a drop. */
export class Change {
  #operation
  #object
  #kind
  #version = null

  /**
   * Internal: only `Room` creates changes.
   * @param {Operation} operation
   * @param {string} kind of the object
   * @param {number} [made]
   */
  constructor(operation, kind, made = performance.now()) {
    this.#kind = kind
    this.become(operation, null)
    /** Whether the client has sent it. After a reconnect the client sends it again if the record lacks it. */
    this.isSent = false
    /**
     * The version that the change was made from, as it was then. It is null for a creation, and where the program named
     * a version by its identifier and that is not shown any more.
     * @type {import("./drawing.js").Version | null}
     */
    this.base = null
    /** Internal: what all changes of its transaction have, or null. */
    this.transaction = null
    /** When the change was made, in milliseconds of `performance.now()`. */
    this.made = made
    /**
     * Resolves when the server has accepted the change. You may ignore this promise: the event `refusal` reports the
     * same, and a rejection is never unhandled. The promise rejects with `Refused`:
     * - with the server's word if the server refused the change;
     * - `withdrawn` if the server refused an earlier pending change of the same object;
     * - `closed` if the room was closed first;
     * - `another-room` if the server now has a different room of this name;
     * - `renewed` if the drawing went on in another room without this change.
     * @type {Promise<void>}
     */
    this.done = new Promise((resolve, reject) => {
      /** Internal: only the library calls these. @type {(end?: Promise<void>) => void} */
      this.resolve = resolve
      /** @type {(refusal: Error) => void} */
      this.reject = reject
    })
    this.done.catch(() => {})
  }

  /**
   * The operation that was sent or will be sent. Its name changes if the client has to join as a new site.
   * @type {Operation}
   */
  get operation() {
    return this.#operation
  }

  /**
   * The name of the operation. For a creation it is also the object's name.
   * @type {Name}
   */
  get name() {
    return this.#operation.name
  }

  /**
   * The object that the change creates or modifies. When the room is renewed, it becomes that object's new name.
   * @type {Name}
   */
  get object() {
    return this.#object
  }

  /**
   * The kind of that object.
   * @type {string}
   */
  get kind() {
    return this.#kind
  }

  /**
   * The version that contains this change, as it was directly after it. A new object has one version. When the room is
   * renewed, it becomes the version of the new room that contains this change.
   */
  get version() {
    return this.#version
  }

  /** Internal: only `Room` calls it. */
  become(operation, version) {
    this.#operation = operation
    this.moveTo(operation.object, version)
  }

  /** Internal: only `Room` calls it. */
  moveTo(object, version) {
    this.#object = object
    this.#version = version
  }
}

/**
 * The latest name of an operation.
 * @param {Name} name
 * @param {Map<number, Name>} laterNames the later names of operations of earlier sites, by the code of the first name
 * @returns {Name}
 */
export function latestName(name, laterNames) {
  const later = laterNames.get(codeOf(name))
  return later === undefined ? name : latestName(later, laterNames)
}

/** The changes that a program still holds. */
export class HeldChanges {
  #references = new Set()
  #known = new WeakSet()

  /** @param {Change} change */
  add(change) {
    if (this.#known.has(change)) return
    this.#known.add(change)
    this.#references.add(new WeakRef(change))
  }

  /** @returns {Change[]} */
  all() {
    const held = [...this.#references].map((reference) => [reference, reference.deref()])
    for (const [reference, change] of held) if (change === undefined) this.#references.delete(reference)
    return held.map(([, change]) => change).filter((change) => change !== undefined)
  }

  /** Forgets all changes. */
  clear() {
    this.#references.clear()
    this.#known = new WeakSet()
  }
}

/**
 * Renames an operation that no other site has seen, because this client is now another site. The result's state vector
 * counts only the accepted operations of the old site, and all earlier operations of the new site.
 * @param {Operation} operation
 * @param {Map<number, Name>} names new names of this client's operations, by the code of the old name
 * @param {number} site the old site
 * @param {number} taken how many operations of the old site the record contains
 * @returns {Operation}
 */
export function renameOperation(operation, names, site, taken) {
  const newName = (name) => names.get(codeOf(name)) ?? name
  const name = newName(operation.name)
  const counts = new Map(operation.seen).set(site, taken)
  counts.set(name[0], name[1] - 1)
  const seen = [...counts].filter(([, count]) => count > 0).sort(([one], [other]) => one - other)
  const version = operation.version && idOf(operation.version.map((old) => codeOf(newName(old))))
  return { ...operation, name, seen, object: newName(operation.object), version }
}

/**
 * Joins state vectors: for each site the largest count, of operations that the drawing has. An operation that got a new
 * name is not there any more.
 * @param {import("./drawing.js").Drawing} drawing
 * @param {[number, number][][]} vectors
 * @returns {[number, number][]} sorted by site
 */
export function joinSeen(drawing, vectors) {
  const counts = new Map()
  for (const [site, count] of vectors.flat()) {
    counts.set(site, Math.max(counts.get(site) ?? 0, Math.min(count, drawing.count(site))))
  }
  return [...counts].filter(([, count]) => count > 0).sort(([one], [other]) => one - other)
}
