/** What this page shows of the room, and which versions the user has selected for editing. */

import { isSameId } from "../../clients/js/grace.js"
import { Connections } from "./connections.js"
import { Selection } from "./selection.js"
import { shapeOf, withAttributes } from "./shapes.js"

export const keyOf = ([site, number]) => `${site},${number}`
export const nameOf = (key) => key.split(",").map(Number)

/** What `previews` is while nothing is dragged. */
export const NO_PREVIEWS = new Map()

export class Board {
  #picks = new Map()
  // By object: versions that survived a deletion and that the user has decided to keep.
  #keptSurvivors = new Map()
  // By object: the versions that were shown before the last event.
  #shownBefore = new Map()
  // All objects, and those that are shown, until the next event.
  #all = null
  #objects = null
  // By the room's list of an object's versions, which stays the same until the object changes.
  #drawn = new WeakMap()
  // What `drawn` gives without a drag, with the objects that it is of, and the place of each object by key.
  #still = { objects: null, drawn: [], places: new Map() }
  // The last result of `drawn`, with the drag that it is of.
  #list = { still: null, previews: null, drawn: [] }

  /** @param {import("../../clients/js/grace.js").Room} room */
  constructor(room) {
    this.room = room
    this.selection = new Selection()
    this.connections = new Connections(this)
    /**
     * The versions that are being dragged, by object. Each step of a drag gives another map.
     * @type {Map<string, { name: any, version: any, attributes: Record<string, any> }>}
     */
    this.previews = NO_PREVIEWS
    /** What the user draws at the moment: a shape, or the `points` of a stroke; or null. @type {any} */
    this.sketch = null
  }

  /** The name of the selected object; null if there is none, or several. */
  get selected() {
    return this.selection.size === 1 ? this.selection.first : null
  }

  /** The picked versions of the selected objects. An object of which the user must pick one first is left out. */
  get chosen() {
    const items = this.selection.names.map((name) => ({ name, version: this.picked(name) }))
    return items.filter(({ version }) => version !== null)
  }

  /** The versions of an object that are shown: those that are not gone. */
  shown(name) {
    return this.room.has(name) ? this.#drawnOf(name).versions : []
  }

  /** All objects, also deleted ones, in the order of the record. */
  all() {
    this.#all ??= this.room.objects()
    return this.#all
  }

  /** The objects with at least one shown version, in the order of the record. */
  objects() {
    this.#objects ??= this.all().filter((name) => this.shown(name).length > 0)
    return this.#objects
  }

  /**
   * These objects, each with its shapes. What is drawn in each frame goes over this list, so it is the same list until
   * the next event or the next step of a drag.
   */
  drawn() {
    const [still, { previews }] = [this.#drawnStill(), this]
    if (this.#list.still !== still || this.#list.previews !== previews) {
      const drawn = previews === NO_PREVIEWS ? still.drawn : this.#withPreviews(still)
      this.#list = { still, previews, drawn }
    }
    return this.#list.drawn
  }

  /** The list without a drag. */
  #drawnStill() {
    const objects = this.objects()
    if (this.#still.objects === objects) return this.#still
    const previews = this.previews
    this.previews = NO_PREVIEWS
    const drawn = objects.map((name) => ({ name, shapes: this.shapes(name) }))
    this.previews = previews
    this.#still = { objects, drawn, places: new Map(objects.map((name, place) => [keyOf(name), place])) }
    return this.#still
  }

  /** The list with what is dragged, and the lines that stick to it. A drag has no time to go over all objects. */
  #withPreviews({ drawn, places }) {
    const list = [...drawn]
    const dragged = [...this.previews.values()].flatMap(({ name }) => [name, ...this.connections.linesAt(name)])
    for (const name of dragged) {
      const place = places.get(keyOf(name))
      if (place !== undefined) list[place] = { name, shapes: this.shapes(name) }
    }
    return list
  }

  /** The version that edits apply to: the only one, or the picked one. Null if the user must pick one first. */
  picked(name) {
    const versions = this.shown(name)
    if (versions.length === 1) return versions[0]
    const pick = this.#picks.get(keyOf(name))
    return versions.find(({ id }) => pick !== undefined && isSameId(id, pick.id)) ?? null
  }

  /** Picks a version for editing. */
  pick(name, version) {
    this.#picks.set(keyOf(name), version)
  }

  isSelected(name) {
    return this.selection.has(name)
  }

  /**
   * The shapes of an object's shown versions, with a drag in progress applied. Without one it is the same list until
   * the object changes.
   */
  shapes(name) {
    const shapes = this.ownShapes(name)
    return shapes[0]?.kind === "line" ? this.connections.drawn(shapes) : shapes
  }

  /** The same, but the ends of lines are where their attributes say, also if they stick to shapes. */
  ownShapes(name) {
    if (!this.room.has(name)) return []
    const { versions, shapes } = this.#drawnOf(name)
    const preview = this.previews.size === 0 ? undefined : this.previews.get(keyOf(name))
    if (preview === undefined) return shapes
    return shapes.map((shape, place) =>
      (preview.version === versions[place] ? withAttributes(shape, preview.version, preview.attributes) : shape))
  }

  /** The versions that survived a deletion, except those that the user keeps. */
  survivors(name) {
    const survivors = this.shown(name).filter(({ outlived }) => outlived.length > 0)
    const keptVersions = survivors.length === 0 ? [] : this.#keptSurvivors.get(keyOf(name)) ?? []
    const isKept = (version) => keptVersions.some((one) =>
      one.outlived.length >= version.outlived.length && this.successors(name, one).includes(version))
    return survivors.filter((version) => !isKept(version))
  }

  /** Keeps versions that survived a deletion: the page stops mentioning the deletion. */
  keep(name, versions) {
    this.#keptSurvivors.set(keyOf(name), [...(this.#keptSurvivors.get(keyOf(name)) ?? []), ...versions])
  }

  /** The current versions that contain an earlier one, except those that are gone. */
  successors(name, version) {
    return this.room.successors(name, version).filter(isThere)
  }

  /**
   * Updates picks and names after a change in the room.
   * @returns {{ name: any, versions: any[], picked: any, isWhole: boolean }[]} the objects of which versions were
   *   deleted: these versions, the picked one of them or null, and whether the object is no longer shown
   */
  update({ objects, renamed }) {
    this.#all = null
    this.#objects = null
    if (renamed.length > 0) this.#rename(new Map(renamed.map(([old, name]) => [keyOf(old), name])))
    const lost = objects.map((name) => this.#lost(name)).filter((one) => one !== null)
    for (const name of objects) this.#follow(name)
    for (const name of objects) if (this.shown(name).length === 0) this.selection.remove(name)
    this.connections.update(objects, renamed.length > 0)
    return lost
  }

  /** The shown versions of an object, and their shapes. */
  #drawnOf(name) {
    const all = this.room.versions(name)
    const known = this.#drawn.get(all)
    if (known !== undefined) return known
    const versions = all.filter(isThere)
    const kind = this.room.kind(name)
    const drawn = { versions, shapes: versions.map(({ attributes }) => shapeOf(kind, attributes)) }
    this.#drawn.set(all, drawn)
    return drawn
  }

  /** Gives objects other names, all at once: the old name of one may be the new name of another. */
  #rename(names) {
    this.selection.rename(names)
    for (const byKey of [this.#picks, this.#keptSurvivors, this.#shownBefore]) {
      const moved = [...byKey].filter(([key]) => names.has(key))
      for (const [key] of moved) byKey.delete(key)
      for (const [key, value] of moved) byKey.set(keyOf(names.get(key)), value)
    }
  }

  /** Replaces a pick by its successor. If there are several, or none, the user must pick again. */
  #follow(name) {
    const pick = this.#picks.get(keyOf(name))
    if (pick === undefined) return
    const successors = this.successors(name, pick)
    if (successors.length === 1) this.#picks.set(keyOf(name), successors[0])
    else this.#picks.delete(keyOf(name))
  }

  /** The versions that were shown of an object and are deleted now; null if there are none. */
  #lost(name) {
    const [before, shown] = [this.#shownBefore.get(keyOf(name)) ?? [], this.shown(name)]
    this.#shownBefore.set(keyOf(name), shown)
    if (before === shown) return null
    const versions = before.filter((version) => this.#isDeleted(name, version))
    if (versions.length === 0) return null
    const pick = this.#picks.get(keyOf(name))
    const picked = versions.find(({ id }) => pick !== undefined && isSameId(id, pick.id)) ?? null
    return { name, versions, picked, isWhole: shown.length === 0 }
  }

  /** Whether nothing of a version is left but what is gone. A version whose change was refused is in none. */
  #isDeleted(name, version) {
    const later = this.room.successors(name, version)
    return later.length > 0 && !later.some(isThere)
  }
}

const isThere = ({ isGone }) => !isGone
