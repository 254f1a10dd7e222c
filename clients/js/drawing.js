/**
 * The objects of a record and their versions, computed from the operations alone. Operations are added one at a time,
 * in any causal order: each after all operations that its state vector counts. The versions do not depend on which
 * causal order it was.
 */

import { ProtocolFault, Refused, codeOf, compareIds, idOf, nameOf } from "./forms.js"
import { BitSet } from "./bit_set.js"

/** @typedef {import("./forms.js").Name} Name */
/** @typedef {import("./forms.js").VersionId} VersionId */
/** @typedef {import("./forms.js").Value} Value */
/** @typedef {import("./forms.js").Operation} Operation */

// By a version: its `DrawnObject`.
const OWNERS = new WeakMap()

/**
 * Internal: the drawing and the object of a version.
 * @param {any} version
 * @returns {{ drawing: Drawing, name: Name } | undefined} undefined if it is not a `Version`
 */
export function ownerOf(version) {
  const owner = OWNERS.get(version)
  return owner && { drawing: owner.drawing, name: owner.creation.name }
}

/** One version of an object, as it was when you read it. It is immutable. */
export class Version {
  #codes

  /** Internal: only `Drawing` creates versions. */
  constructor(id, attributes, codes, outlived) {
    /**
     * The identifier that a put or a drop names as its base.
     * @type {VersionId}
     */
    this.id = id
    /**
     * Whether a drop deleted this version. A site that has seen the drop cannot change the version any more. @type
     * {boolean}
     */
    this.isGone = attributes === null
    /**
     * Key and value of each attribute, sorted by key. Empty if the version is gone.
     * @type {Map<string, Value>}
     */
    this.attributes = attributes ?? new Map()
    /**
     * The drops that this version survived. The author of such a drop deleted all that they had seen of this version,
     * while others changed it concurrently. A drop of another version does not count. Empty if the version is gone.
     * @type {Name[]}
     */
    this.outlived = outlived.map(nameOf)
    this.#codes = new Set(codes)
  }

  /**
   * The names of all changes in this version, in the order in which the drawing received them.
   * @returns {Name[]}
   */
  get members() {
    return [...this.#codes].map(nameOf)
  }

  /** @param {Name} name @returns {boolean} whether this version contains the change */
  has(name) {
    return this.#codes.has(codeOf(name))
  }
}

/** An object and its changes. An index of a change is its position in `changes`. */
class DrawnObject {
  #indexes = new Map()
  #codes = []
  // By index: the base together with the change itself, the direct conflicts, and all conflicts.
  #basesWithSelf = []
  #direct = []
  #conflicts = []
  #disputed = new BitSet()
  #drops = new BitSet()
  // By a drop's index: the set of changes that its author had seen.
  #knownByDrops = new Map()
  #groups = [new BitSet()]
  #versions = null

  /** @param {Operation} creation @param {Drawing} drawing */
  constructor(creation, drawing) {
    this.creation = creation
    this.drawing = drawing
    /**
     * In the order of arrival.
     * @type {Operation[]}
     */
    this.changes = []
    this.keys = new Set()
  }

  /**
   * Adds a change. The object must have received all changes that the change's state vector counts.
   * @param {Operation} change
   * @throws {Refused} `no-such-object`: the author had not seen the object. `no-such-version`: the author had seen no
   *   version with this identifier. `gone`: the base contains a drop. The object is unchanged.
   */
  add(change) {
    const { known, unknown, base } = this.check(change)
    const index = this.changes.length
    this.changes.push(change)
    if (change.word === "drop") {
      this.#drops.insert(index)
      this.#knownByDrops.set(index, known)
    } else for (const [key] of change.attributes) this.keys.add(key)
    this.#indexes.set(codeOf(change.name), index)
    this.#codes.push(codeOf(change.name))
    this.#basesWithSelf.push(base.with(index))
    this.#direct.push(this.#relate(this.#direct, index, this.#directWith(change, unknown)))
    const conflicts = this.#conflictsWith(index, known, unknown, base)
    this.#conflicts.push(this.#relate(this.#conflicts, index, conflicts))
    this.#disputed.insertAll(conflicts)
    if (conflicts.values().length > 0) this.#disputed.insert(index)
    this.#groups = withChange(this.#groups, index, conflicts)
    this.#versions = null
  }

  /**
   * Checks a change without adding it.
   * @param {Operation} change
   * @returns the indexes of the changes that its author had seen, those of the others, and the base
   * @throws {Refused} as `add`
   */
  check(change) {
    const [creator, made] = this.creation.name
    const isKnown = change.seen.some(([site, count]) => site === creator && count >= made)
    if (!isKnown) throw new Refused("no-such-object")
    const { known, unknown } = this.#known(change.seen)
    const base = this.#groupNamed(known, change.version)
    if (base === null) throw new Refused("no-such-version")
    if (base.intersects(this.#drops)) throw new Refused("gone")
    return { known, unknown, base }
  }

  /** @returns {Version[]} sorted by identifier */
  versions() {
    this.#versions ??= this.#groups
      .map((group) => this.#versionOf(group))
      .sort((one, other) => compareIds(one.id, other.id))
    return this.#versions
  }

  /** The version that contains a change, as it was directly after it. For the object's creation, its first version. */
  versionAfter(name) {
    const index = this.#indexes.get(codeOf(name))
    return this.#versionOf(index === undefined ? new BitSet() : this.#basesWithSelf[index])
  }

  /** Splits the changes into those that a state vector counts and the others, as indexes. */
  #known(seen) {
    const counts = new Map(seen)
    const known = new BitSet()
    const unknown = []
    this.changes.forEach(({ name: [site, number] }, index) => {
      if (number <= (counts.get(site) ?? 0)) known.insert(index)
      else unknown.push(index)
    })
    return { known, unknown }
  }

  /**
   * Finds the group among the known changes that has this identifier; null if there is none. A group contains every
   * undisputed change. Of the disputed changes it contains exactly those that the identifier names, and each other one
   * conflicts with one of them.
   */
  #groupNamed(known, id) {
    if (!this.#disputed.intersects(known)) return id.length === 0 ? known : null
    const named = new BitSet()
    for (const name of id) {
      const index = this.#indexes.get(codeOf(name))
      if (index === undefined || !known.has(index)) return null
      named.insert(index)
    }
    const group = named.copy()
    for (const index of known.values()) {
      const conflicts = this.#conflicts[index]
      if (conflicts.intersects(known)) {
        if (conflicts.intersects(named) === named.has(index)) return null
      } else if (named.has(index)) return null
      else group.insert(index)
    }
    return group
  }

  /** The earlier changes that conflict directly with this one, as indexes. */
  #directWith(change, unknown) {
    const direct = new BitSet()
    for (const index of unknown) if (conflictDirectly(change, this.changes[index])) direct.insert(index)
    return direct
  }

  /** The earlier changes that conflict with the one at this index. Its direct conflicts must be stored already. */
  #conflictsWith(index, known, unknown, base) {
    const conflicts = known.without(base)
    if (unknown.length === 0) return conflicts
    const opposed = this.#direct[index].copy()
    for (const member of base.values()) opposed.insertAll(this.#direct[member])
    for (const other of unknown) if (opposed.intersects(this.#basesWithSelf[other])) conflicts.insert(other)
    return conflicts
  }

  /** Stores in a symmetric relation that an index is related to these others. Returns the others. */
  #relate(relation, index, others) {
    for (const other of others.values()) relation[other].insert(index)
    return others
  }

  #versionOf(group) {
    const indexes = group.values()
    const codes = (some) => some.map((index) => this.#codes[index])
    const id = idOf(codes(indexes.filter((index) => this.#disputed.has(index))))
    const isGone = group.intersects(this.#drops)
    const outlived = isGone ? [] : this.#drops.values().filter((drop) => this.#outlives(group, drop))
    const version = new Version(id, isGone ? null : this.#attributes(indexes), codes(indexes), codes(outlived))
    OWNERS.set(version, this)
    return version
  }

  /** Whether a version survives a drop: the drop's base contains all of the group that the drop's author had seen. */
  #outlives(group, drop) {
    return !group.without(this.#basesWithSelf[drop]).intersects(this.#knownByDrops.get(drop))
  }

  #attributes(indexes) {
    const values = new Map(this.creation.attributes)
    for (const index of indexes) for (const [key, value] of this.changes[index].attributes) values.set(key, value)
    return new Map([...values].sort(([one], [other]) => (one < other ? -1 : 1)))
  }
}

/** Whether two concurrent changes conflict directly: exactly one is a drop, or two puts give a key different values. */
function conflictDirectly(one, other) {
  if (one.word === "drop" || other.word === "drop") return one.word !== other.word
  return one.attributes.some(([key, value]) =>
    other.attributes.some(([otherKey, otherValue]) => otherKey === key && otherValue !== value))
}

/** The maximal compatible groups after a change is added that conflicts with these. */
function withChange(groups, index, conflicts) {
  const groupsAfter = groups.map((group) => (group.intersects(conflicts) ? group : group.with(index)))
  for (const group of groups) {
    if (!group.intersects(conflicts)) continue
    const candidate = group.without(conflicts).with(index)
    if (groupsAfter.some((other) => candidate.isSubsetOf(other))) continue
    // A new candidate may contain an earlier candidate, but never one of the old groups.
    const larger = groupsAfter.filter((other) => !other.isSubsetOf(candidate))
    groupsAfter.splice(0, groupsAfter.length, ...larger, candidate)
  }
  return groupsAfter
}

/** Objects and their versions, computed from the operations added so far. */
export class Drawing {
  #counts = new Map()
  /** @type {Map<number, DrawnObject>} */
  #objects = new Map()

  /** @param {number} site @returns {number} how many operations of the site were added */
  count(site) {
    return this.#counts.get(site) ?? 0
  }

  /**
   * The state vector of all operations added so far, sorted by site.
   * @returns {[number, number][]}
   */
  seen() {
    return [...this.#counts].sort(([one], [other]) => one - other)
  }

  /**
   * Adds an operation. All operations must come from the same record; otherwise the result is meaningless.
   * @param {Operation} operation
   * @throws {ProtocolFault} it is not the next operation of its site, or it counts an operation that is missing here
   * @throws {Refused} `no-such-object`, `no-such-version`, `gone`. The drawing is unchanged.
   */
  add(operation) {
    const [site, number] = operation.name
    this.#admit(operation, site, number)
    if (operation.word === "new") this.#objects.set(codeOf(operation.name), new DrawnObject(operation, this))
    else this.#find(operation.object).add(operation)
    this.#counts.set(site, number)
  }

  /**
   * Checks whether `add` would accept a change. The drawing stays unchanged.
   * @param {Operation} change a put or a drop
   * @throws {ProtocolFault | Refused} as `add`
   */
  check(change) {
    this.#admit(change, ...change.name)
    this.#find(change.object).check(change)
  }

  #admit({ seen }, site, number) {
    const name = `operation ${site},${number}`
    if (number !== this.count(site) + 1) throw new ProtocolFault(`${name} is not the next of its site`)
    for (const [other, count] of seen) {
      if (count > this.count(other)) throw new ProtocolFault(`${name} counts an operation that is missing here`)
    }
  }

  /**
   * Removes the last operations of a site. No operation of another site may count them.
   * @param {number} site
   * @param {number} first the number of the first operation to remove
   */
  remove(site, first) {
    const isRemoved = ({ name }) => name[0] === site && name[1] >= first
    for (const [code, object] of this.#objects) {
      if (isRemoved(object.creation)) this.#objects.delete(code)
      else if (object.changes.some(isRemoved)) this.#objects.set(code, rebuild(object, isRemoved))
    }
    if (first > 1) this.#counts.set(site, first - 1)
    else this.#counts.delete(site)
  }

  /** How many objects there are. @type {number} */
  get size() {
    return this.#objects.size
  }

  /** @returns {Name[]} the objects, in the order in which they were added */
  names() {
    return [...this.#objects.keys()].map(nameOf)
  }

  /** @param {Name} name @returns {boolean} whether the object exists */
  has(name) {
    return this.#objects.has(codeOf(name))
  }

  /** @param {Name} name @returns {string} the object's kind @throws {Refused} `no-such-object` */
  kind(name) {
    return this.#find(name).creation.kind
  }

  /**
   * The versions of an object, sorted by identifier.
   * @param {Name} name @returns {Version[]}
   * @throws {Refused} `no-such-object`
   */
  versions(name) {
    return this.#find(name).versions()
  }

  /**
   * The version that contains an operation, as it was directly after it.
   * @param {Operation} operation one that was added
   * @returns {Version}
   * @throws {Refused} `no-such-object`
   */
  versionAfter({ name, object }) {
    return this.#find(object).versionAfter(name)
  }

  /**
   * How many changes an object has, and which keys they use. Both count towards `LIMITS`.
   * @param {Name} name @returns {{ changes: number, keys: Set<string> }}
   * @throws {Refused} `no-such-object`
   */
  used(name) {
    const { changes, keys } = this.#find(name)
    return { changes: changes.length, keys }
  }

  #find(name) {
    const object = this.#objects.get(codeOf(name))
    if (object === undefined) throw new Refused("no-such-object")
    return object
  }
}

function rebuild(object, isRemoved) {
  const rebuilt = new DrawnObject(object.creation, object.drawing)
  for (const change of object.changes) if (!isRemoved(change)) rebuilt.add(change)
  return rebuilt
}
