/** The list of who is here, the field for the own name, and messages about who came and who left. */

import { Arrivals } from "./arrivals.js"
import { html, part } from "./elements.js"
import { initialsOf, numberOf } from "./words.js"

// With more people than these only the initials are shown, and with many more not all of them.
const NAMED = 4
const SHOWN = 12

export class PeopleList {
  #drawn = ""
  #isAsking
  #field = part("own-name").querySelector("input")
  #arrivals = new Arrivals(() => this.#whoIsHere(), (words) => (part("arrivals").textContent = words))

  /** @param {import("./people.js").People} people */
  constructor(people) {
    this.people = people
    this.#isAsking = !people.isAsked
    people.onChange(() => {
      this.#arrivals.look()
      this.draw()
    })
    people.room.on("renewed", () => this.#arrivals.begin())
    this.#listen()
    this.draw()
  }

  draw() {
    const { own, others } = this.people
    const people = [own, ...others]
    const drawn = JSON.stringify([this.#isAsking, ...people.map(({ site, name, colour }) => [site, name, colour])])
    if (drawn === this.#drawn) return
    this.#drawn = drawn
    part("own-name").hidden = !this.#isAsking
    const isFocused = part("people").contains(document.activeElement) && document.activeElement.closest("li") !== null
    const items = own.site === null ? [] : people.map((person, place) => this.#itemOf(person, place))
    const more = people.length - SHOWN
    if (more > 0) items.push(unread(html("li", { className: "more", textContent: `+${numberOf(more)}` })))
    const list = part("people").querySelector("ul")
    list.classList.toggle("many", people.length > NAMED)
    list.replaceChildren(...items)
    if (isFocused) list.querySelector("button")?.focus({ preventScroll: true })
  }

  /** The others, or null while the page is not in the room and does not know. */
  #whoIsHere() {
    const { others, room } = this.people
    return room.state === "open" || room.state === "saving" ? others : null
  }

  #itemOf({ name, colour }, place) {
    const initials = unread(html("span", { className: "initials", textContent: initialsOf(name) }))
    initials.style.background = colour
    const words = html("span", { className: "name", textContent: place === 0 ? `${name} (you)` : name })
    const item = html("li", { title: words.textContent, className: place < SHOWN ? "" : "unseen" })
    if (place > 0) item.append(initials, words)
    else item.append(this.#ownButton(initials, words))
    return item
  }

  #ownButton(...parts) {
    const own = html("button", { type: "button", title: "Change your name", onclick: () => this.#ask() }, ...parts)
    own.setAttribute("aria-expanded", this.#isAsking)
    own.setAttribute("aria-controls", "own-name")
    return own
  }

  #listen() {
    part("own-name").addEventListener("submit", (event) => {
      event.preventDefault()
      this.#close(this.#field.value)
    })
    // A press on the drawing takes the focus, and saves what was written.
    this.#field.addEventListener("blur", ({ relatedTarget }) => {
      const isLeft = this.#isAsking && !part("people").contains(relatedTarget)
      if (isLeft && this.#field.value.trim() !== "") this.#end(this.#field.value)
    })
    const keep = part("keep-name")
    keep.checked = this.people.isNameKept
    keep.addEventListener("change", () => this.people.keepName(keep.checked))
    // A press on the words would take the focus from the field, and close the form before the click.
    keep.parentNode.addEventListener("mousedown", (event) => event.target !== keep && event.preventDefault())
    part("own-name").addEventListener("keydown", (event) => {
      if (event.key !== "Escape") return
      event.stopPropagation()
      this.#close(this.people.ownName)
    })
  }

  /** Opens the field for the name, or closes it. */
  #ask() {
    if (this.#isAsking) return this.#close(this.#field.value)
    this.#isAsking = true
    this.#field.value = this.people.ownName
    this.draw()
    this.#field.focus()
  }

  #close(name) {
    this.#end(name)
    part("people").querySelector("li button")?.focus({ preventScroll: true })
  }

  #end(name) {
    this.#isAsking = false
    this.people.rename(name)
    this.draw()
  }
}

/** Makes a screen reader pass over an element. */
function unread(element) {
  element.setAttribute("aria-hidden", "true")
  return element
}
