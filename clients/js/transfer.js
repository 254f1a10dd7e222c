/**
 * What a client takes with it from a room that has ended into its successor. The successor's record begins with entries
 * that draw what the old record draws: the same objects and versions in the same order, under other names. So objects
 * and versions of the two rooms correspond by place.
 */

import { Drawing } from "./drawing.js"
import { LIMITS, codeOf, isSameId, nameOf, operationOf } from "./forms.js"
import { writeText } from "./json_text.js"

/** @typedef {import("./forms.js").Name} Name */
/** @typedef {import("./forms.js").Operation} Operation */
/** @typedef {import("./drawing.js").Version} Version */

// The attributes of one request together take at most half of a message. The rest is for its state vector and base.
const ATTRIBUTES_BYTES = LIMITS.messageBytes / 2
const ENCODER = new TextEncoder()

/**
 * The drawing after these entries.
 * @param {readonly any[][]} entries
 */
export function drawingOf(entries) {
  const drawing = new Drawing()
  for (const entry of entries) {
    const operation = operationOf(entry)
    if (operation !== null) drawing.add(operation)
  }
  return drawing
}

/**
 * The objects that a drawing draws: those with a version that is not gone, in order of creation, each with these
 * versions in order of identifier.
 * @param {Drawing} drawing
 * @returns {{ name: Name, versions: Version[] }[]}
 */
export function drawnObjects(drawing) {
  const objects = drawing.names().map((name) => ({ name, versions: drawing.versions(name).filter(isThere) }))
  return objects.filter(({ versions }) => versions.length > 0)
}

/**
 * Whether two drawings draw the same, apart from names and identifiers.
 * @param {Drawing} one
 * @param {Drawing} other
 */
export function drawSame(one, other) {
  const [objects, others] = [drawnObjects(one), drawnObjects(other)]
  return objects.length === others.length && objects.every(({ name, versions }, place) => {
    const { name: otherName, versions: otherVersions } = others[place]
    return one.kind(name) === other.kind(otherName) && showSame(versions, otherVersions)
  })
}

const showSame = (versions, others) =>
  versions.length === others.length && versions.every((version, place) => haveSame(version, others[place]))

const haveSame = ({ attributes }, { attributes: others }) =>
  attributes.size === others.size && [...attributes].every(([key, value]) => others.get(key) === value)

const isThere = ({ isGone }) => !isGone

/**
 * The pending changes of a client, as operations for the successor. Each version that the old room would show with them
 * is shown there: as a version of its object where it continues one, otherwise as an object of its own.
 */
export class Transfer {
  /**
   * The operations to send, in groups. `pending` has the codes of the pending operations whose effect a group has.
   * @type {{ operations: Operation[], pending: number[] }[]}
   */
  groups = []
  /**
   * Versions that could not go on as versions of their object: the object, and the one that each of them became.
   * @type {[object: Name, copy: Name][]}
   */
  copies = []
  #all
  #next
  #site
  #pending
  // By the code of an object: the corresponding one.
  #objects = new Map()
  // By a version of `all`: the object and the version that correspond to it.
  #versions = new Map()

  /**
   * @param {Drawing} old the drawing of the old record
   * @param {Drawing} all the drawing of the old record and the pending operations
   * @param {Name[]} pending the names of these operations
   * @param {Drawing} next the successor's drawing after its first entries, which draws the same as `old`. It gets the
   *   operations to send. So their state vectors count these entries and the operations before them
   * @param {number} site the client's site in the successor
   */
  constructor(old, all, pending, next, site) {
    this.#all = all
    this.#next = next
    this.#site = site
    this.#pending = new Set(pending.map(codeOf))
    const places = drawnObjects(next)
    const drawn = drawnObjects(old).map(({ name, versions }, place) => [codeOf(name), pairsOf(versions, places[place])])
    const corresponding = new Map(/** @type {[number, any][]} */ (drawn))
    for (const name of all.names()) this.#carryObject(name, corresponding.get(codeOf(name)))
  }

  /**
   * The objects that have another name in the successor.
   * @returns {[old: Name, now: Name][]}
   */
  get renamed() {
    const pairs = [...this.#objects].map(([code, now]) => /** @type {[Name, Name]} */ ([nameOf(code), now]))
    return pairs.filter(([old, now]) => codeOf(old) !== codeOf(now))
  }

  /**
   * The versions of the successor that contain all changes of an earlier version, and belong to the corresponding
   * object.
   * @param {Name} object the old name
   * @param {Name[]} members the changes of the earlier version
   * @returns {{ object: Name, version: Version }[]}
   */
  continuations(object, members) {
    const now = this.#objects.get(codeOf(object))
    if (now === undefined) return []
    const later = this.#all.versions(object).filter((version) => members.every((name) => version.has(name)))
    const found = later.map((version) => this.#versions.get(version)).filter((one) => one !== undefined)
    return found.filter((one) => codeOf(one.object) === codeOf(now))
  }

  /**
   * What corresponds to the version with this identifier that the old room showed at its end.
   * @param {Name} object the old name
   * @param {import("./forms.js").VersionId} id
   * @returns {{ object: Name, version: Version, old: Version } | undefined}
   */
  find(object, id) {
    if (!this.#all.has(object)) return undefined
    const old = this.#all.versions(object).find((version) => isSameId(version.id, id))
    const found = this.#versions.get(old)
    return found && { ...found, old }
  }

  /** @param {Name} name @param {{ old: Version, now: Version, object: Name }[]} [places] of the object's versions */
  #carryObject(name, places = []) {
    const rest = new Set(places)
    if (places.length > 0) this.#objects.set(codeOf(name), places[0].object)
    for (const version of this.#all.versions(name)) {
      const pending = [name, ...version.members].map(codeOf).filter((code) => this.#pending.has(code))
      const place = [...rest].find(({ old }) => hasSameRecorded(version, old, this.#pending))
      if (place !== undefined) rest.delete(place)
      if (pending.length > 0) this.#carry(name, version, place, pending)
      else if (place !== undefined) this.#versions.set(version, { object: place.object, version: place.now })
    }
  }

  /** Makes the operations for a version with pending changes. */
  #carry(name, version, place, pending) {
    if (version.isGone) {
      if (place !== undefined) this.#drop(place, pending)
      return
    }
    const changed = place === undefined ? [] : differences(version, place.old)
    if (place !== undefined && this.#takes(place.object, changed)) this.#continue(version, place, changed, pending)
    else this.#create(name, version, pending)
  }

  /** Whether an object takes these attributes. */
  #takes(object, attributes) {
    const keys = new Set([...this.#next.used(object).keys, ...attributes.map(([key]) => key)])
    return keys.size <= LIMITS.keys
  }

  #drop({ object, now }, pending) {
    const version = this.#current(object, now).id
    this.groups.push({ operations: [this.#operation({ word: "drop", object, version })], pending })
  }

  /** Puts what a version has more than the corresponding one. */
  #continue(version, { object, now }, attributes, pending) {
    const operations = this.#puts(object, now, attributes)
    if (operations.length > 0) this.groups.push({ operations, pending })
    this.#versions.set(version, { object, version: this.#after(object, operations) ?? now })
  }

  /** Creates an object with the attributes of a version. */
  #create(name, version, pending) {
    const [attributes = [], ...more] = portions([...version.attributes])
    const creation = this.#operation({ word: "new", kind: this.#all.kind(name), attributes })
    const { object } = creation
    const [now] = this.#next.versions(object)
    const operations = [creation, ...this.#puts(object, now, more.flat())]
    this.groups.push({ operations, pending })
    this.#versions.set(version, { object, version: this.#after(object, operations) ?? now })
    const original = this.#objects.get(codeOf(name))
    if (original === undefined) this.#objects.set(codeOf(name), object)
    else this.copies.push([original, object])
  }

  #puts(object, version, attributes) {
    return portions(attributes).map((some) =>
      this.#operation({ word: "put", object, version: this.#current(object, version).id, attributes: some }))
  }

  /** The version that contains all changes of an earlier one. The client's own operations leave exactly one. */
  #current(object, earlier) {
    return this.#next.versions(object).find((version) => earlier.members.every((name) => version.has(name)))
  }

  /** The version that the last of these operations made, if it is a put. */
  #after(object, operations) {
    const last = operations.at(-1)
    return this.#next.versions(object).find((version) => last !== undefined && version.has(last.name))
  }

  /** Adds the next operation of the client in the successor. */
  #operation(rest) {
    const name = [this.#site, this.#next.count(this.#site) + 1]
    const operation = { name, seen: this.#next.seen(), object: name, ...rest }
    this.#next.add(operation)
    return operation
  }
}

/** The corresponding versions of an object. */
const pairsOf = (versions, { name, versions: now }) =>
  versions.map((old, place) => ({ old, now: now[place], object: name }))

/** Whether the changes of a version that are not pending are exactly those of another one. */
function hasSameRecorded(version, old, pending) {
  const recorded = version.members.filter((name) => !pending.has(codeOf(name)))
  return recorded.length === old.members.length && recorded.every((name) => old.has(name))
}

/** The attributes of a version that another one lacks, or has with other values. */
const differences = ({ attributes }, { attributes: old }) =>
  [...attributes].filter(([key, value]) => old.get(key) !== value)

/** Attributes in portions, each for one request. */
function portions(attributes) {
  const found = []
  let bytes = 0
  for (const attribute of attributes) {
    const size = ENCODER.encode(writeText(attribute)).length + 1
    const isFull = found.length === 0 || found.at(-1).length === LIMITS.attributes || bytes + size > ATTRIBUTES_BYTES
    if (isFull) found.push([])
    bytes = isFull ? size : bytes + size
    found.at(-1).push(attribute)
  }
  return found
}
