/**
 * The layer above all objects, in pixels of the window: rings, tags, handles that resize, and pending marks.
 */

import { isSameId } from "../../clients/js/grace.js"
import { keyOf, nameOf } from "./board.js"
import { boundsOf, boundsOfAll, grown, handlesOf, meet, middleOf, sidesOf } from "./boxes.js"
import { svg } from "./elements.js"
import { FINGER, isCoarse } from "./preferences.js"
import { atOnePlace, stripeOf } from "./sheet.js"
import { SIDE, freePlaces, rowsAbove } from "./tags.js"
import { letterOf } from "./words.js"

const GAP = 5
const STRIPE_GAP = -1
const HANDLE = 14
const LAST_HANDLE = "end"
// A shape of fewer pixels has one handle alone.
const LEAST_WITH_HANDLES = 4 * HANDLE
const TAG_RADIUS = 13
// With more tags than these, each unselected object has a single tag with its number of versions.
const MANY_TAGS = 80
// An object with more versions than these has its tags in rows above it. Only the picked version and the one under the
// pointer have a ring.
const FEW = 6
// More selected objects than these have one ring around all.
const MANY_SELECTED = 100

export class Marks {
  // The scale that the style sheet knows.
  #scale = null

  /**
   * @param {{ board: import("./board.js").Board, camera: import("./camera.js").Camera, sheet:
   *   import("./sheet.js").Sheet, pending: import("./pending_changes.js").PendingChanges }} parts
   * @param {SVGElement} layer above all objects
   * @param {SVGElement} links the layer below all objects
   */
  constructor({ board, camera, sheet, pending }, layer, links) {
    Object.assign(this, { board, camera, sheet, pending, layer, links, hovered: null })
    for (const event of ["pointerover", "pointerout"]) {
      layer.addEventListener(event, ({ target }) => this.#hover(event === "pointerover" ? target : null))
    }
  }

  /** Highlights the version whose tag is under the pointer. */
  #hover(target) {
    const { object, letter } = target?.closest(".tag")?.dataset ?? {}
    const hovered = object === undefined ? null : `${object} ${letter}`
    if (hovered === this.hovered) return
    this.hovered = hovered
    this.layer.querySelector(".ring.hovered")?.remove()
    const found = hovered === null ? null : this.sheet.under(target)
    if (found !== null) this.layer.prepend(this.#ringOfHovered(found))
  }

  #ringOfHovered({ name, version }) {
    const { boxes } = this.#objectOf(name)
    const ring = ringOf(boxes[this.board.shown(name).indexOf(version)], false, GAP)
    ring.classList.add("hovered")
    return ring
  }

  draw() {
    const { camera } = this
    const pending = this.pending.keys()
    const objects = this.#marked(pending).map((name) => this.#objectOf(name)).filter(({ isSeen }) => isSeen)
    const several = objects.filter(({ shapes }) => shapes.length > 1)
    const selected = objects.filter(({ isSelected, picked }) => isSelected && picked >= 0)
    // The handles of a line alone show that it is selected. A ring would hide it.
    const isLineAlone = (object) => selected.length === 1 && object === selected[0] && isSingleLine(object)
    const rings = objects.filter((object) => !isLineAlone(object)).flatMap((object) => this.#ringsOf(object))
    const pendingMarks = objects.filter(({ name }) => pending.has(keyOf(name))).map(pendingMarkOf)
    const handles = selected.length === 1 ? this.#handles(selected[0]) : []
    this.links.replaceChildren(...several.flatMap(linksOf))
    this.layer.replaceChildren(...rings, ...this.#ringOfMany(), ...pendingMarks, ...this.#tags(several), ...handles)
    if (camera.scale !== this.#scale) this.layer.parentNode.style.setProperty("--scale", camera.scale)
    this.#scale = camera.scale
  }

  /** The objects that have marks: those with several versions, and the others that are selected, focused or pending. */
  #marked(pending) {
    const { board, sheet } = this
    const several = board.drawn().filter(({ shapes }) => shapes.length > 1).map(({ name }) => name)
    const focused = sheet.focused === null ? [] : [sheet.focused.name]
    const named = [...(this.#isManySelected ? [] : board.selection.names), ...focused].map(keyOf)
    const others = [...new Set([...named, ...pending])].map(nameOf)
    return [...several, ...others.filter((name) => board.shown(name).length === 1)]
  }

  get #isManySelected() {
    return this.board.selection.size > MANY_SELECTED
  }

  /** The ring around all selected objects, if they are many. */
  #ringOfMany() {
    if (!this.#isManySelected) return []
    const shapes = this.board.selection.names.flatMap((name) => this.board.shapes(name))
    return [ringOf(this.camera.boxOf(boundsOfAll(shapes)), true, GAP)]
  }

  /** Collects what the marks need of an object: its shapes, their boxes in the window, and the picked version. */
  #objectOf(name) {
    const { board, camera } = this
    const shapes = board.shapes(name)
    const stripes = shapes.map((_, place) => stripeOf(shapes, place))
    const boxes = shapes.map((shape, place) => camera.boxOf(stripes[place] ?? boundsOf(shape)))
    const picked = board.picked(name)
    return {
      name, shapes, stripes, boxes, isSelected: board.isSelected(name),
      isSeen: boxes.some((box) => meet(box, camera.window)),
      picked: board.shown(name).findIndex(({ id }) => picked !== null && isSameId(id, picked.id)),
    }
  }

  #ringsOf({ name, shapes, stripes, boxes, isSelected, picked }) {
    const focused = this.#placeOfFocus(name)
    const ring = (box, place) => {
      const isPicked = place === picked && (isSelected || shapes.length > 1)
      if ((shapes.length === 1 || shapes.length > FEW) && !isPicked && place !== focused) return []
      return [ringOf(box, isPicked || place === focused, stripes[place] === null ? GAP : STRIPE_GAP)]
    }
    return boxes.flatMap(ring)
  }

  /** The index of the version that has the keyboard focus, or -1. */
  #placeOfFocus(name) {
    const { focused } = this.sheet
    if (focused === null || keyOf(focused.name) !== keyOf(name)) return -1
    return document.activeElement.matches(":focus-visible") ? this.board.shown(name).indexOf(focused.version) : -1
  }

  /** The handles that resize the picked version. A finger hits them also beside their shape. */
  #handles({ name, shapes, boxes, picked }) {
    const isLine = shapes[picked].kind === "line"
    const isShown = (end) => isLine || end === LAST_HANDLE || hasSpaceFor(end, boxes[picked], shapes.length)
    const ends = Object.entries(handlesOf(shapes[picked])).filter(([end]) => isShown(end))
    return ends.flatMap(([end, [x, y]]) => {
      const corner = this.camera.boxOf({ x, y, width: 0, height: 0 })
      const own = { "data-object": keyOf(name), "data-letter": letterOf(picked), "data-end": end }
      const handle = handleAt("handle", corner, HANDLE, own)
      return isCoarse() ? [handleAt("handle reach", besideCorner(corner, end, isLine), FINGER, own), handle] : [handle]
    })
  }

  /** The tags of all versions, or one tag for each unselected object if there are many. */
  #tags(several) {
    const isMany = several.reduce((sum, { shapes }) => sum + shapes.length, 0) > MANY_TAGS
    const first = [...several].sort((one, other) => other.isSelected - one.isSelected)
    const tags = first.flatMap((object) => (isMany && !object.isSelected ? countTag(object) : letterTags(object)))
    const seen = tags.filter(({ box }) => meet(box, this.camera.window))
    const places = freePlaces(seen.map(({ wanted }) => wanted), this.camera.window)
    return seen.flatMap((tag, place) => (places[place] === null ? [] : [tagOf(tag, places[place])]))
  }
}

const isSingleLine = ({ shapes }) => shapes.length === 1 && shapes[0].kind === "line"

/** Whether a corner can have a handle: a small shape would be all handles, and the first corner may have a tag. */
const hasSpaceFor = (end, { width, height }, versions) =>
  Math.min(width, height) >= LEAST_WITH_HANDLES && (versions === 1 || end !== "top-left")

/** The middle of what a finger hits of a handle: outside the shape, which it could not take otherwise. */
function besideCorner({ x, y }, end, isLine) {
  if (isLine) return { x, y }
  const [isLeft, isTop] = sidesOf(end)
  return { x: x + (isLeft ? -HANDLE : HANDLE), y: y + (isTop ? -HANDLE : HANDLE) }
}

const handleAt = (name, { x, y }, side, own) =>
  svg("rect", { class: name, x: x - side / 2, y: y - side / 2, width: side, height: side, rx: 4, ...own })

/** A tag for each version: at its corner, in its stripe, or in rows above the object if there are many. */
function letterTags({ name, shapes, stripes, boxes, picked }) {
  const rows = rowsAbove(shapes.length, grown(boundsOfAll(boxes), GAP + 2))
  return boxes.map((box, place) => {
    const own = { text: letterOf(place), object: keyOf(name), letter: letterOf(place), isPicked: place === picked, box }
    if (shapes.length > FEW) return { ...own, wanted: rows[place] }
    const x = stripes[place] === null ? box.x - GAP : middleOf(box)[0]
    return { ...own, wanted: { x, y: box.y - GAP } }
  })
}

/** A single tag for all versions of an object, at the first one, with their number. */
function countTag({ name, shapes, boxes: [box] }) {
  const wanted = { x: box.x - GAP, y: box.y - GAP }
  return [{ text: `×${shapes.length}`, object: keyOf(name), letter: letterOf(0), isPicked: false, box, wanted }]
}

/** The element of a tag. A line connects a displaced tag to its version. */
function tagOf({ text, object, letter, isPicked, wanted }, { x, y }) {
  const element = svg("g", { class: isPicked ? "tag picked" : "tag", "data-object": object, "data-letter": letter })
  if (Math.hypot(wanted.x - x, wanted.y - y) > SIDE / 2) {
    element.append(svg("line", { class: "lead", x1: x, y1: y, x2: wanted.x, y2: wanted.y }))
  }
  const word = svg("text", { class: text.length > 1 ? "letter long" : "letter", x, y })
  word.textContent = text
  if (isCoarse()) element.append(svg("circle", { class: "reach", cx: x, cy: y, r: SIDE / 2 }))
  element.append(svg("circle", { cx: x, cy: y, r: TAG_RADIUS }), word)
  return element
}

/** The ring around a version. A picked version has a stronger one. */
function ringOf(box, isPicked, gap) {
  return svg("rect", { class: isPicked ? "ring picked" : "ring", ...grown(box, gap), rx: Math.max(0, gap + 1) })
}

/** Lines from the first version to those at other places. */
function linksOf({ boxes, shapes }) {
  const near = atOnePlace(shapes, 0)
  const [[x1, y1], ...others] = boxes.filter((_, place) => place === 0 || !near.includes(place)).map(middleOf)
  return others.map(([x2, y2]) => svg("line", { class: "link", x1, y1, x2, y2 }))
}

/** The mark of an object that has a pending change. */
function pendingMarkOf({ name, boxes, picked }) {
  const { x, y, width } = boxes[Math.max(0, picked)]
  const element = svg("g", { class: "waiting", "data-waiting": keyOf(name), transform: `translate(${x + width} ${y})` })
  element.append(svg("circle", { r: 10 }), ...[-4, 0, 4].map((cx) => svg("circle", { class: "dot", cx, r: 1.6 })))
  return element
}
