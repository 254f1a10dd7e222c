/**
 * What the room refuses of the user's work: an object as it would have been. A notice keeps it until the user has made
 * it a new object, or discards it.
 */

import { keyOf } from "./board.js"
import { pictureOf } from "./cards.js"
import { shapeOfForm } from "./deleted_objects.js"
import { button, html, part } from "./elements.js"
import { refusedWords } from "./words.js"

// After these refusals there is nothing to keep: the change stays saved, the old drawing is offered as a file, or the
// page is not in the room.
const NOTHING_LOST = ["closed", "another-room", "not-joined", "read-only"]

export class RefusedChanges {
  // The changes that others keep when they are refused.
  #kept = new WeakSet()
  // The changes that were refused together: the first one, and those that build on it.
  #together = []

  /** @param {import("./whiteboard.js").Page} page */
  constructor(page) {
    this.page = page
  }

  /** Whether a notice keeps something. */
  get isKeeping() {
    return part("kept").children.length > 0
  }

  /** Leaves a change to the caller, who keeps what it does if it is refused. */
  leave(change) {
    this.#kept.add(change)
  }

  /**
   * Tells that the room refused something at once.
   * @param {Error} refusal
   * @param {{ kind: string, attributes: Map<string, any>, isNew?: boolean } | null} form what would be lost
   */
  refuse(refusal, form) {
    const { word } = refusal
    if (form === null || word === undefined || NOTHING_LOST.includes(word)) this.page.say(refusal.message)
    else this.#keep(form, refusal)
  }

  /** Tells that the server refused a change which the page had shown: in these words, if there is nothing to keep. */
  withdraw(refusal, change, words) {
    const isLost = !this.#kept.has(change) && change.operation.word !== "drop"
    if (!isLost || NOTHING_LOST.includes(refusal.word)) this.page.say(words)
    if (NOTHING_LOST.includes(refusal.word)) return
    if (this.#together.length === 0) queueMicrotask(() => this.#withdrawTogether())
    this.#together.push({ refusal, change, isLost })
  }

  #withdrawTogether() {
    const byObject = new Map()
    for (const one of this.#together.splice(0)) {
      const key = keyOf(one.change.object)
      byObject.set(key, [...(byObject.get(key) ?? []), one])
    }
    for (const all of byObject.values()) this.#withdraw(all)
  }

  /** Of changes of an object that build on each other, the last one has what all of them did. */
  #withdraw(all) {
    const creation = all.find(({ change }) => change.operation.word === "new")
    const others = all.map(({ change }) => change).filter((change) => !this.#kept.has(change))
    const isBuiltOn = (change) => others.some((other) =>
      other !== change && (change === creation?.change || other.version.has(change.name)))
    for (const { change } of all.filter((one) => one.isLost && !isBuiltOn(one.change))) {
      const { kind, version } = change
      this.refuse(all[0].refusal, { kind, attributes: version.attributes, isNew: creation !== undefined })
    }
  }

  #keep(form, refusal) {
    const { changes, clipboard } = this.page
    const notice = html("section", { className: "notice" })
    const copy = button("Copy it", "copy-kept", () => {
      clipboard.keep([form])
      copy.textContent = "Copied"
    })
    const make = button("Make it a new object", "make-kept", () => {
      notice.remove()
      changes.draw(form.kind, form.attributes)
    })
    const isMade = changes.space.takes(form.attributes.size)
    const discard = button("Discard", "discard-kept", () => notice.remove())
    const shape = shapeOfForm(form)
    notice.append(pictureOf([shape], 0), html("p", { textContent: refusedWords(shape, refusal.message, form.isNew) }),
      html("div", { className: "actions" }, copy, ...(isMade ? [make] : []), discard))
    part("kept").append(notice)
  }
}
