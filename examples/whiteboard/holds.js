/** What the others hold, that is, drag or have selected: outlines with names, and words before one takes it too. */

import { keyOf } from "./board.js"
import { between, boundsOf, grown, meet } from "./boxes.js"
import { html, part } from "./elements.js"
import { heldWords } from "./words.js"

const GAP = 4
// The outlines of several people around one object.
const STEP = 4
// A name is so far below its outline, whose edge the style sheet makes so wide, and so high.
const LABEL_GAP = 1
const LABEL_HEIGHT = 17
const EDGE_WIDTH = 2
const WORDS_MILLISECONDS = 4000
const WORDS_GAP = 10
const WORDS_HEIGHT = 40
const EDGE = 90

export class Holds {
  // By site: the element of an outline, and the width of its name.
  #shown = new Map()
  // The object about which it was said who holds it, or null.
  #told = null
  #timer = null

  /**
   * @param {import("./people.js").People} people
   * @param {import("./view.js").View} view
   * @param {import("./ghosts.js").Ghosts} ghosts
   * @param {Element} layer
   */
  constructor(people, view, ghosts, layer) {
    Object.assign(this, { people, ghosts, layer, board: view.board, camera: view.camera })
  }

  /** Says which others hold an object, near it. Null, or an object that nobody else holds, ends what was said. */
  tell(name) {
    clearTimeout(this.#timer)
    const { others } = this.people
    const holders = name === null ? [] : others.filter((person) => holds(person.drag ?? person.selected, name))
    this.#told = holders.length > 0 ? name : null
    if (this.#told === null) return part("held").replaceChildren()
    const moving = holders.filter(({ drag }) => drag !== null)
    const words = heldWords(moving.map(({ name }) => name), holders.map(({ name }) => name))
    // A screen reader would read the same words again.
    if (part("held").textContent !== words) part("held").textContent = words
    this.#placeWords()
    this.#timer = setTimeout(() => this.tell(null), WORDS_MILLISECONDS)
  }

  draw() {
    const counts = new Map()
    const seen = this.people.others.flatMap((person) => this.#outlineOf(person, counts))
    const sites = new Set(seen.map(({ person }) => person.site))
    for (const [site, { element }] of this.#shown) if (!sites.has(site)) this.#remove(site, element)
    const labels = []
    for (const outline of seen) labels.push(this.#draw(outline, labels))
    if (this.#told !== null) this.#placeWords()
  }

  /** The outline of what a person holds, if it is in the window. */
  #outlineOf(person, counts) {
    const held = person.drag ?? person.selected
    if (held === null) return []
    const box = this.ghosts.boxOf(person) ?? this.#boxOf(held)
    if (box === null) return []
    const rank = counts.get(keyOf(held.object)) ?? 0
    counts.set(keyOf(held.object), rank + 1)
    const inWindow = grown(this.camera.boxOf(boundsOf(box)), GAP + rank * STEP)
    return meet(inWindow, this.camera.window) ? [{ person, box: inWindow }] : []
  }

  #boxOf({ object, place }) {
    const shapes = this.board.shapes(object)
    return shapes[place] ?? shapes[0] ?? null
  }

  /** Draws an outline with its name, below all names that it would cover. Returns the box of the name. */
  #draw({ person, box: { x, y, width, height } }, labels) {
    const shown = this.#shown.get(person.site) ?? this.#add(person.site)
    const { element } = shown
    const [name] = element.children
    if (name.textContent !== person.name) {
      name.textContent = person.name
      shown.width = name.offsetWidth
    }
    const label = freeLabel({ x, y: y + height + LABEL_GAP, width: shown.width, height: LABEL_HEIGHT }, labels)
    Object.assign(element.style, {
      transform: `translate(${x}px, ${y}px)`, width: `${width}px`, height: `${height}px`,
    })
    element.style.setProperty("--colour", person.colour)
    name.style.top = `${label.y - y - EDGE_WIDTH}px`
    return label
  }

  #add(site) {
    const element = html("div", { className: "hold", dataset: { site } }, html("span"))
    this.layer.append(element)
    const shown = { element, width: 0 }
    this.#shown.set(site, shown)
    return shown
  }

  #remove(site, element) {
    element.remove()
    this.#shown.delete(site)
  }

  /** Places what was said above its object, which may move. */
  #placeWords() {
    const box = this.#boxOf({ object: this.#told, place: 0 })
    if (box === null) return this.tell(null)
    const { x, y, width } = this.camera.boxOf(boundsOf(box))
    const middle = between(EDGE, x + width / 2, this.camera.width - EDGE)
    const bottom = between(WORDS_HEIGHT, y - WORDS_GAP, this.camera.height - WORDS_HEIGHT)
    Object.assign(part("held").style, { left: `${middle}px`, top: `${bottom}px` })
  }
}

/** Moves the box of a name down until it covers none of the others. */
function freeLabel(label, others) {
  const covered = others.find((other) => meet(label, grown(other, -1)))
  if (covered === undefined) return label
  return freeLabel({ ...label, y: covered.y + covered.height }, others)
}

const holds = (held, name) => held !== null && keyOf(held.object) === keyOf(name)
