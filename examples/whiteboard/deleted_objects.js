/** Deleted objects, and how the user brings one back: as a new object with the old attributes. */

import { withoutMakers } from "./maker_keys.js"
import { shapeOf } from "./shapes.js"

export class DeletedObjects {
  /** @param {import("./whiteboard.js").Page} page */
  constructor(page) {
    this.page = page
  }

  /** The objects whose versions are all gone, the latest first. */
  objects() {
    const { board } = this.page
    return board.all().filter((name) => board.shown(name).length === 0).toReversed()
  }

  /** Kind and attributes of each deleted version, without duplicates. */
  formsOf(name) {
    const { room, changes } = this.page
    const kind = room.kind(name)
    const attributesOf = (version) => changes.entries.attributesOf(name, version)
    const forms = room.versions(name).map((version) => ({ kind, attributes: attributesOf(version) }))
    return [...new Map(forms.map((form) => [textOf(form), form])).values()]
  }

  /** Creates an object from a deleted version. */
  bringBack({ kind, attributes }) {
    this.page.changes.draw(kind, attributes)
  }
}

/** The shape of a deleted version. */
export const shapeOfForm = ({ kind, attributes }) => shapeOf(kind, attributes)

const textOf = ({ attributes }) =>
  withoutMakers(attributes).map(([key, value]) => `${key} ${typeof value} ${value}`).sort().join("\n")
