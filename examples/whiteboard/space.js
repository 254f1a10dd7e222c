/** How much more the room takes. Deleted objects count too, and so do pending changes. */

import { LIMITS } from "../../clients/js/grace.js"

export class Space {
  /** @param {import("./board.js").Board} board */
  constructor(board) {
    this.board = board
  }

  get objects() {
    return LIMITS.objects - this.board.all().length
  }

  get entries() {
    const { record, pending } = this.board.room
    return LIMITS.entries - record.length - pending.length
  }

  /**
   * Whether these versions could be deleted, but not brought back: that takes new objects.
   * @param {{ attributes: Map<string, unknown> }[]} versions
   */
  makesFinal(versions) {
    const [deletions, { entries, objects }] = [versions.length, this]
    const again = versions.reduce((sum, { attributes }) => sum + entriesOfNew(attributes.size), 0)
    return deletions <= entries && (deletions > objects || deletions + again > entries)
  }

  /** Whether it takes all of these new objects. */
  takesAll(forms) {
    const entries = forms.reduce((sum, { attributes }) => sum + entriesOfNew(attributes.size), 0)
    return this.objects >= forms.length && this.entries >= entries
  }

  /** How many of these new objects it takes, from the first one on. */
  fitting(forms) {
    let { entries, objects } = this
    const isTooMuch = ({ attributes }) => (entries -= entriesOfNew(attributes.size)) < 0 || (objects -= 1) < 0
    const first = forms.findIndex(isTooMuch)
    return first < 0 ? forms.length : first
  }

  /** Whether it takes a new object with this many attributes. */
  takes(attributes) {
    return this.objects > 0 && this.entries >= entriesOfNew(attributes)
  }
}

/** The entries of a new object with this many attributes: the creation, and puts for those that it does not take. */
export const entriesOfNew = (attributes) => Math.max(1, Math.ceil(attributes / LIMITS.attributes))
