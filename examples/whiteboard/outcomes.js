/** What has become of the versions that the user's actions made, also after what they made was deleted or renewed. */

import { keyOf } from "./board.js"
import { withoutMakers } from "./maker_keys.js"
import { USUAL } from "./shapes.js"

const NOT_IN_THIS_ROOM = "the drawing went on in another room without it."

/** A step that cannot be undone or redone, with the reason. */
export class Irreversible extends Error {}

export class Outcomes {
  // By deleted object: the creation that brought it back.
  #restored = new Map()
  // The actions in a room that was renewed since, and those of them that did not come along.
  #earlier = new WeakSet()
  #leftBehind = new WeakSet()

  /**
   * @param {import("./board.js").Board} board
   * @param {import("./entries.js").Entries} entries
   * @param {(name: any) => boolean} isOwn whether the user made an operation
   */
  constructor(board, entries, isOwn) {
    Object.assign(this, { board, entries, isOwn })
  }

  /** By deleted object: the creation that brought it back in this room. */
  get restored() {
    return [...this.#restored].filter(([, act]) => this.isOfThisRoom(act))
  }

  /** Whether an action was made in this room, and not in one that was renewed. */
  isOfThisRoom(act) {
    return !this.#earlier.has(act)
  }

  /** An action brought back a deleted object. @param {string} key of the object */
  restore(key, act) {
    this.#restored.set(key, act)
  }

  /**
   * The drawing goes on in another room, where operations have other names. What the user did before can be undone
   * there as long as its values are the same.
   */
  goOn(acts) {
    for (const act of [...acts, ...this.#restored.values()]) {
      this.#earlier.add(act)
      const { object, version } = act.change
      if (this.board.successors(object, version).length === 0) this.#leftBehind.add(act)
    }
  }

  /**
   * The version that an action made, if nobody else has built on it. For an object that came back, the new object's
   * version.
   * @throws {Irreversible}
   */
  latestOf(act) {
    const { change } = act
    const found = this.board.successors(change.object, change.version)
    if (found.length === 0) {
      const again = this.#restored.get(keyOf(change.object))
      if (again !== undefined) return this.latestOf(again)
      throw new Irreversible(this.#leftBehind.has(act) ? NOT_IN_THIS_ROOM : "somebody deleted it.")
    }
    if (found.length > 1) throw new Irreversible("others changed it at the same time, so it has several versions.")
    const [version] = found
    const isChanged = this.isOfThisRoom(act) ? this.#isBuiltOn(version, change.name) : !hasValuesOf(version, act)
    if (isChanged) throw new Irreversible("somebody has changed it since.")
    return { name: change.object, version }
  }

  /** Whether somebody else has seen a change and then changed the same version. */
  #isBuiltOn(version, name) {
    const others = version.members.filter((member) => !this.isOwn(member))
    return others.some((other) => {
      const operation = this.entries.find(other)
      return operation !== null && this.entries.hadSeen(operation, name)
    })
  }
}

/** Whether a version still has the values of an action. One that was created has no others. */
function hasValuesOf({ attributes }, { word, after }) {
  const keys = word === "create" ? withoutMakers(attributes).map(([key]) => key) : [...after.keys()]
  return keys.every((key) => attributes.get(key) === (after.get(key) ?? USUAL[key] ?? ""))
}
