/** What the page tells when others deleted what the user worked on, or changed what the user deleted. */

import { keyOf } from "./board.js"
import { shapeOf } from "./shapes.js"
import { wordsOf } from "./words.js"

export class DeletionMessages {
  // The user's deletions that the page has told about.
  #told = new Set()

  /** @param {import("./whiteboard.js").Page} page */
  constructor(page) {
    this.page = page
  }

  /** The drawing goes on in another room, where deletions have other names. */
  forget() {
    this.#told.clear()
  }

  /**
   * Tells of an event that others caused.
   * @param {ReturnType<import("./board.js").Board["update"]>} lost
   * @param {any[]} changed the objects that have changed
   * @param {Set<string>} selected the objects that were selected before
   */
  tell(lost, changed, selected) {
    for (const one of lost) {
      if (!one.isWhole) this.#tellOfVersions(one)
      else if (selected.has(String(one.name))) this.#tellOfObject(one)
    }
    for (const name of changed) this.#tellOfReturn(name)
  }

  /** Says that others deleted the selected object, and offers to bring it back. */
  #tellOfObject({ name, versions }) {
    const words = `${this.#wordsOf(name, versions[0])} was deleted by others. `
    this.page.say(words, { words: "Bring it back", about: keyOf(name), act: this.#bringBack(name, versions) })
  }

  /** Says that others deleted a version that the user had picked or made, while the object has others. */
  #tellOfVersions({ name, versions, picked }) {
    const { changes, say } = this.page
    const own = versions.filter((version) => version === picked || version.id.some((one) => changes.isOwn(one)))
    if (own.length === 0) return
    const words = `Somebody deleted your version of ${this.#wordsOf(name, own[0])}. `
    const act = this.#bringBack(name, own)
    say(words, { words: "Bring it back as a new object", about: keyOf(name), act, isLasting: true })
  }

  /** Says that a change of others brought back what the user deleted, once for each deletion. */
  #tellOfReturn(name) {
    const { board, changes, say } = this.page
    const isNew = (drop) => changes.hasDropped(drop) && !this.#told.has(keyOf(drop))
    const back = board.survivors(name).filter(({ outlived }) => outlived.some(isNew))
    if (back.length === 0) return
    for (const { outlived } of back) for (const drop of outlived) this.#told.add(keyOf(drop))
    const words = this.#wordsOf(name, back[0])
    const isWhole = back.length === board.shown(name).length
    const which = isWhole ? `${words}, which you deleted,` : `A version of ${words} that you deleted`
    say(`${which} is back: somebody changed it meanwhile. `,
      { words: "Delete it too", about: keyOf(name), act: () => changes.drop(name, back) })
  }

  #wordsOf(name, { attributes }) {
    return wordsOf(shapeOf(this.page.room.kind(name), attributes))
  }

  /** What brings versions back: each as a new object, as nothing can go on from a deleted version. */
  #bringBack(name, versions) {
    const kind = this.page.room.kind(name)
    const forms = versions.map(({ attributes }) => ({ kind, attributes }))
    return () => forms.forEach((form) => this.page.deletedObjects.bringBack(form))
  }
}
