/** Groups of objects. Those of a group have the same text, which is not empty, under the key `group`. */

import { uniqueText } from "./links.js"

/** The group of an object: that of its picked version, or of its first one. Empty if it is in none. */
export function groupOf(board, name) {
  const shapes = board.shapes(name)
  const place = board.shown(name).indexOf(board.picked(name))
  return shapes[Math.max(0, place)]?.group ?? ""
}

/** These objects, and all others of their groups. */
export function withGroups(board, names) {
  const groups = new Set(names.map((name) => groupOf(board, name)).filter((group) => group !== ""))
  if (groups.size === 0) return names
  const chosen = new Set(names.map(String))
  return board.objects().filter((name) => chosen.has(String(name)) || groups.has(groupOf(board, name)))
}

/** What the user does to groups: each is one step. */
export class Grouping {
  /** @param {import("./whiteboard.js").Page} page */
  constructor(page) {
    this.page = page
  }

  /** Whether all selected objects are in one group. */
  get isOneGroup() {
    const { board } = this.page
    const groups = new Set(board.selection.names.map((name) => groupOf(board, name)))
    return groups.size === 1 && !groups.has("")
  }

  /** Makes one group of several selected objects. */
  group() {
    const { board, changes } = this.page
    if (board.selection.size > 1 && !this.isOneGroup) changes.change({ group: uniqueText() })
  }

  /** Takes the selected objects out of their groups. */
  ungroup() {
    const { board, changes } = this.page
    if (board.selection.names.some((name) => groupOf(board, name) !== "")) changes.change({ group: "" })
  }
}
