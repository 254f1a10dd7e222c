/** The pointers of the others, with their names, above the drawing. A pointer that stays in its place fades. */

import { Glide } from "./glide.js"
import { html, svg } from "./elements.js"

const FADES_AFTER_MILLISECONDS = 10000
const ARROW = "M1 1 L1 16 L5.4 12.2 L8.2 18.4 L11 17.2 L8.3 11.2 L14 10.8 Z"

export class Pointers {
  // By site: the element of a pointer, and where it is.
  #shown = new Map()

  /**
   * @param {import("./people.js").People} people
   * @param {import("./camera.js").Camera} camera
   * @param {Element} layer
   */
  constructor(people, camera, layer) {
    Object.assign(this, { people, camera, layer })
  }

  draw() {
    const now = performance.now()
    const pointing = this.people.others.filter(({ pointer }) => pointer !== null)
    this.#removeOthersThan(new Set(pointing.map(({ site }) => site)))
    for (const person of pointing) this.#draw(person, now)
  }

  /** Whether some pointer has not reached its place. */
  get isChanging() {
    const now = performance.now()
    return [...this.#shown.values()].some(({ glide }) => glide.isMoving(now))
  }

  #removeOthersThan(sites) {
    for (const [site, { element, timer }] of this.#shown) {
      if (sites.has(site)) continue
      clearTimeout(timer)
      element.remove()
      this.#shown.delete(site)
    }
  }

  #draw(person, now) {
    const shown = this.#shown.get(person.site) ?? this.#add(person)
    if (shown.person !== person) this.#follow(shown, person, now)
    const [x, y] = shown.glide.at(now)
    const place = this.camera.boxOf({ x, y, width: 0, height: 0 })
    shown.element.style.transform = `translate(${place.x}px, ${place.y}px)`
  }

  #add({ site, pointer }) {
    const arrow = svg("svg", { width: 15, height: 20 }, svg("path", { d: ARROW }))
    const name = html("span")
    const element = html("div", { className: "pointer", dataset: { site } }, arrow, name)
    this.layer.append(element)
    const shown = { element, name, glide: new Glide(pointer), person: null, timer: null }
    this.#shown.set(site, shown)
    return shown
  }

  /** Takes what a new note says. */
  #follow(shown, person, now) {
    const isMoved = shown.person === null || String(shown.glide.end) !== String(person.pointer)
    shown.person = person
    shown.name.textContent = person.name
    // Whoever drags has the name at the outline of what is dragged.
    shown.name.hidden = person.drag !== null
    shown.element.style.setProperty("--colour", person.colour)
    if (!isMoved) return
    shown.glide.go(person.pointer, now)
    shown.element.classList.remove("still")
    clearTimeout(shown.timer)
    shown.timer = setTimeout(() => shown.element.classList.add("still"), FADES_AFTER_MILLISECONDS)
  }
}
