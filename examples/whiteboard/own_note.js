/**
 * The note of this page. Alone in the room, or while the page is hidden, it has no pointer, no drag and no sketch:
 * nobody would see them, and a phone's radio can rest.
 */

import { keyOf } from "./board.js"
import { colourOf, writeNote } from "./notes.js"

/** How many operations of a site a state vector has. */
export const countOf = (seen, site) => seen.find(([other]) => other === site)?.[1] ?? 0

export class OwnNote {
  /** The name, which may be empty. */
  name = ""
  /** The pointer on the drawing, or null. */
  pointer = null
  // The last drag. It stays in the note until the room has taken its change, so that the others see no step back.
  #drag = null
  // The last sketch, in the same way.
  #sketch = null
  #isAwaiting = false
  #colour = null

  /**
   * @param {import("./board.js").Board} board
   * @param {() => boolean} isSeen whether somebody else is in the room, and this page is not hidden
   */
  constructor(board, isSeen) {
    Object.assign(this, { board, isSeen })
  }

  /** The colour of this page. It stays when the room is renewed, where the page gets another site. */
  get colour() {
    const { site } = this.board.room
    if (this.#colour === null && site !== null) this.#colour = colourOf(site)
    return this.#colour
  }

  /** Writes the note, if it says something new. The room sends it at its own pace. */
  write() {
    const { room } = this.board
    if (room.site === null || room.state === "closed") return
    const isSeen = this.isSeen()
    const [drag, sketch] = [this.#dragNow(), this.#sketchNow()]
    const note = writeNote({
      name: this.name, colour: this.colour, selected: this.#selected(),
      pointer: isSeen ? this.pointer : null, drag: isSeen ? drag : null, sketch: isSeen ? sketch : null,
    })
    if (note !== room.note) room.note = note
  }

  #selected() {
    const { board } = this
    const { first } = board.selection
    if (first === null) return null
    const place = board.shown(first).indexOf(board.picked(first))
    return { object: first, place: Math.max(0, place) }
  }

  #dragNow() {
    const preview = this.board.previews.values().next().value
    if (preview !== undefined) this.#drag = this.#dragOf(preview)
    else if (this.#drag !== null && !this.#awaits(this.#drag)) this.#drag = null
    return this.#drag
  }

  /** What is drawn, or what was drawn and is pending. @returns {any} */
  #sketchNow() {
    const { room, sketch } = this.board
    if (sketch !== null) this.#sketch = { ...sketch, made: this.#madeBefore() }
    else if (this.#sketch !== null && !this.#awaitsAny(room.pending)) this.#sketch = null
    return this.#sketch
  }

  #madeBefore() {
    const { room } = this.board
    return countOf(room.seen, room.site)
  }

  #dragOf({ name, version }) {
    const place = this.board.shown(name).indexOf(version)
    if (place < 0) return null
    return { object: name, place, box: this.board.shapes(name)[place], made: this.#madeBefore() }
  }

  /** Whether the change of a drag is still pending. */
  #awaits({ object }) {
    return this.#awaitsAny(this.board.room.pending.filter((change) => keyOf(change.object) === keyOf(object)))
  }

  /** Whether some of these changes are pending. If so, the note is written again after their end. */
  #awaitsAny(pending) {
    if (pending.length > 0 && !this.#isAwaiting) {
      this.#isAwaiting = true
      this.board.room.settled().then(() => {
        this.#isAwaiting = false
        this.write()
      })
    }
    return pending.length > 0
  }
}
