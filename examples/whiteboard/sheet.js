/** The objects on the page: an element for each shown version, sorted from back to front. */

import { isSameId } from "../../clients/js/grace.js"
import { bodyOf, isThin, textOf } from "./bodies.js"
import { keyOf, nameOf } from "./board.js"
import { boundsOf } from "./boxes.js"
import { setAttribute, svg } from "./elements.js"
import { Grips } from "./grips.js"
import { letterOf, wordsOf } from "./words.js"

// Up to this many versions at the same place are drawn as stripes. If there are more, only one is visible.
const STRIPES = 4
const GAP = 7
// Each version is a copy of this one: attributes that are alike are set once for all.
const VERSION = svg("g", {
  class: "version", tabindex: 0, role: "button", "aria-keyshortcuts": "Delete F2", "aria-pressed": false,
  "data-letter": letterOf(0),
})

export class Sheet {
  // By object: for each of its versions the element and its sort keys.
  #entries = new Map()
  // By element: the object and the version that it draws.
  #drawn = new WeakMap()
  // The version at which the user points in the panel, and the others of its object.
  #alone = null
  #aside = []
  #grips = new Grips()

  /**
   * @param {import("./board.js").Board} board
   * @param {Element} element the whole drawing
   * @param {Element} layer the layer of the objects
   */
  constructor(board, element, layer) {
    this.board = board
    this.element = element
    this.layer = layer
    /** Whether elements are being replaced, so that a lost focus will be restored. */
    this.isDrawing = false
  }

  /**
   * Draws these objects again, and sorts all of them if there are others than before.
   * @param {Iterable<any>} names
   */
  draw(names) {
    this.isDrawing = true
    const focused = this.#drawn.get(document.activeElement)
    let isSorted = true
    for (const name of names) if (!this.#refresh(name)) isSorted = this.#replace(name) && isSorted
    if (!isSorted) this.#order()
    this.#grips.draw()
    if (focused !== undefined && !document.activeElement?.closest(".version")) this.#focus(focused)
    this.isDrawing = false
  }

  /** Draws an object anew. Returns whether there is nothing to sort. */
  #replace(name) {
    const key = keyOf(name)
    const old = this.#entries.get(key) ?? []
    for (const { element } of old) element.remove()
    const isShown = this.board.shown(name).length > 0
    if (isShown) this.#entries.set(key, this.#entriesOf(name))
    else this.#entries.delete(key)
    return !isShown
  }

  /**
   * Draws an object in the element that it has, if it has only one version, before and now, at the same place in the
   * order. So a drag sorts nothing, and the element keeps the focus. Returns whether it was so.
   */
  #refresh(name) {
    const [entry, ...others] = this.#entries.get(keyOf(name)) ?? []
    const [version, ...more] = this.board.shown(name)
    if (entry === undefined || version === undefined || others.length + more.length > 0) return false
    const shapes = this.board.shapes(name)
    const before = this.#drawn.get(entry.element).version
    const isSame = before === version || this.board.successors(name, before)[0] === version
    if (!isSame || shapes[0].z !== entry.z) return false
    this.#fill(entry.element, name, shapes, 0, this.board.isSelected(name))
    this.#drawn.set(entry.element, { name, version })
    return true
  }

  /**
   * Shows an unfinished shape, or removes it.
   * @param {SVGElement | null} body
   */
  sketch(body) {
    this.layer.querySelector(".sketch")?.remove()
    if (body !== null) this.layer.append(body)
  }

  /** Shows a version without the others of its object; null shows all again. */
  showAlone(name, version) {
    for (const element of this.#aside) element.classList.remove("aside")
    this.#alone?.classList.remove("alone")
    this.#alone = version === null ? null : this.find(name, version)
    this.#alone?.classList.add("alone")
    const all = this.#alone === null ? [] : this.#entries.get(keyOf(name)).map(({ element }) => element)
    this.#aside = all.filter((element) => element !== this.#alone)
    for (const element of this.#aside) element.classList.add("aside")
    this.element.classList.toggle("showing-one", this.#aside.length > 0)
  }

  /** The element of a version, or null. */
  find(name, version) {
    const entries = this.#entries.get(keyOf(name)) ?? []
    return entries.find(({ element }) => this.#drawn.get(element).version === version)?.element ?? null
  }

  /** The object and the version that an element of the drawing belongs to, or null. */
  under(target) {
    const { object, letter } = target?.closest("[data-object]")?.dataset ?? {}
    if (object === undefined) return null
    const name = nameOf(object)
    const version = this.board.shown(name).find((_, place) => letterOf(place) === letter)
    return version === undefined ? null : { name, version }
  }

  /** The object and the version with the focus, or null. */
  get focused() {
    return this.#drawn.get(document.activeElement) ?? null
  }

  /** Moves the focus from a version to the whole drawing if others are selected now, to which keys apply. */
  leaveFocus() {
    const { focused } = this
    const isOther = focused !== null && this.board.selection.size > 0 && !this.board.isSelected(focused.name)
    if (isOther) this.element.focus({ preventScroll: true })
  }

  /** Moves the focus to the successor of a version, or to the whole drawing if the version is gone. */
  #focus({ name, version }) {
    const [next] = this.board.successors(name, version)
    // The object may have another name.
    const entry = [...this.#entries.values()].flat().find(({ element }) => this.#drawn.get(element).version === next)
    const focused = entry?.element ?? this.element
    focused.focus({ preventScroll: true })
  }

  /** Sorts the elements from back to front: by `z`, then in the order of the record. The picked version comes last. */
  #order() {
    const entries = this.board.objects().flatMap((name) => this.#entries.get(keyOf(name)) ?? [])
    // Entries of one `z` keep their order.
    entries.sort((one, other) => one.z - other.z)
    let next = this.layer.firstChild
    for (const { element } of entries) {
      if (element === next) next = next.nextSibling
      else this.layer.insertBefore(element, next)
    }
  }

  #entriesOf(name) {
    const versions = this.board.shown(name)
    const shapes = this.board.shapes(name)
    const picked = this.board.picked(name)
    const hasPicked = picked !== null && versions.length > 1
    const entries = shapes.map((shape, place) => {
      const isPicked = picked !== null && isSameId(picked.id, versions[place].id)
      const isMarked = isPicked && (hasPicked || this.board.isSelected(name))
      const element = this.#version(name, shapes, place, isMarked)
      if (hasPicked && !isPicked) element.classList.add("other")
      this.#drawn.set(element, { name, version: versions[place] })
      return { element, z: shape.z, isPicked }
    })
    return entries.sort((one, other) => one.isPicked - other.isPicked)
  }

  #version(name, shapes, place, isMarked) {
    return this.#fill(/** @type {SVGElement} */ (VERSION.cloneNode()), name, shapes, place, isMarked)
  }

  /** Gives the element of a version what it draws, and what it says. */
  #fill(element, name, shapes, place, isMarked) {
    const shape = shapes[place]
    const letter = letterOf(place)
    const words = wordsOf(shape) + (shapes.length > 1 ? `, version ${letter} of ${shapes.length}` : "")
    const key = keyOf(name)
    setAttribute(element, "class", isMarked ? "version picked" : "version")
    setAttribute(element, "aria-label", words)
    setAttribute(element, "aria-pressed", String(isMarked))
    setAttribute(element, "data-object", key)
    setAttribute(element, "data-letter", letter)
    const stripe = stripeOf(shapes, place)
    element.replaceChildren(...bodiesOf(shape, stripe, `${key}-${letter}`))
    this.#grips.note(element, isThin(shape))
    if (shape.text !== "") element.append(textOf(stripe === null ? shape : { ...shape, ...stripe }))
    return element
  }
}

/** The elements of a shape without its text: cut to a stripe if there is one, whose clip path has this identifier. */
export function bodiesOf(shape, stripe, id) {
  const body = bodyOf(shape)
  if (stripe === null) return [body]
  body.setAttribute("clip-path", `url(#stripe-${id})`)
  return [svg("clipPath", { id: `stripe-${id}` }, svg("rect", stripe)), body]
}

/** The indexes of the versions that have the same position and size as this one. */
export function atOnePlace(shapes, place) {
  const placeOf = ({ x, y, width, height }) => [x, y, width, height].join()
  return [...shapes.keys()].filter((other) => placeOf(shapes[other]) === placeOf(shapes[place]))
}

/** The stripe of a version that shares its place with a few others, otherwise null. */
export function stripeOf(shapes, place) {
  if (shapes.length === 1) return null
  const there = atOnePlace(shapes, place)
  if (there.length === 1 || there.length > STRIPES || isThin(shapes[place])) return null
  const { x, y, width, height } = boundsOf(shapes[place])
  const part = width / there.length
  return { x: x + there.indexOf(place) * part, y: y - GAP, width: part, height: height + 2 * GAP }
}
