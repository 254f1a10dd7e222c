/** Messages to the user: the connection, loading, and problems. */

import { LIMITS } from "../../clients/js/grace.js"
import { button, html, part } from "./elements.js"
import { linkTo, uniqueText } from "./links.js"
import { countOf, numberOf } from "./words.js"

const NO_SUCH_ROOM = "There is no drawing under this link, and this server begins no new ones."
const LOOKING = "This drawing takes nobody new. You can look at it, but not change it."
const MAKE_SPACE = "Delete what is not needed, or begin a new drawing."

const WORDS_MILLISECONDS = 10000
const ACTION_MILLISECONDS = 20000

// A server that keeps its rooms renews one soon after nine tenths of a limit: it looks after each few entries. Where so
// many more are used, the room could not be renewed.
const RENEWED_WITHIN = 64

/**
 * Shows a message for some seconds, once, with a button if the user can do something about it. An action of the same
 * `about` replaces the one before it. One that `isLasting` stays until the user closes it.
 */
export function say(words, action = null) {
  const kind = action === null ? words : `action ${action.about ?? ""}`
  const line = html("p", { dataset: { kind } }, words)
  for (const old of [...part("refusals").children]) if (old.dataset.kind === kind) old.remove()
  if (action !== null) {
    const act = () => {
      line.remove()
      action.act()
    }
    line.append(button(action.words, "act", act))
  }
  part("refusals").append(line)
  if (action?.isLasting) return line.append(button("Close", "close", () => line.remove()))
  setTimeout(() => line.remove(), action === null ? WORDS_MILLISECONDS : ACTION_MILLISECONDS)
}

/** How far the drawing is loaded, or why it never will be. */
export function showProgress(room) {
  const { have, of } = room.progress
  // A reloaded page shows its saved drawing at once.
  part("loading").hidden = room.isLoaded || room.objects().length > 0
  const bar = part("loading").querySelector("progress")
  bar.value = of === 0 ? 0 : have / of
  bar.hidden = room.state === "closed"
  part("loading").querySelector("p").textContent = loadingWords(room)
}

function loadingWords(room) {
  const { have, of } = room.progress
  if (room.fault?.word === "no-such-room") return NO_SUCH_ROOM
  // Before the page is in the room, they say why it is not.
  if (room.state === "closed" || of === 0) return room.words
  return `Loading the drawing: ${numberOf(have)} of ${numberOf(of)}.`
}

/** Says why the page's address leads to no drawing, and leads to a new one. */
export function showNoDrawing(words) {
  Object.assign(part("state").dataset, { state: "closed" })
  part("state").textContent = words
  document.body.classList.add("no-drawing")
  part("loading").replaceChildren(html("p", {}, `There is no drawing at this address: ${words}. `,
    html("a", { href: linkTo(uniqueText()), textContent: "Begin a new drawing" })))
}

/** The connection state, and a summary of the drawing. */
export class StateLine {
  #milliseconds = 0

  /** @param {import("./board.js").Board} board */
  constructor(board) {
    this.board = board
    board.room.on("state", ({ milliseconds }) => {
      this.#milliseconds = milliseconds
      this.draw()
    })
  }

  draw() {
    const { room } = this.board
    const words = this.#words()
    const element = part("state")
    element.title = room.words
    if (element.dataset.state === room.state && element.dataset.words === words) return
    Object.assign(element.dataset, { state: room.state, words })
    element.replaceChildren(words)
    if (room.state === "closed") element.append(button("Try again", "again", () => location.reload()))
  }

  #words() {
    const { room } = this.board
    const waiting = room.pending.length
    if (room.isReadOnly) return LOOKING
    const words = [room.state === "open" ? "Connected." : room.words]
    const changes = countOf(waiting, "change")
    if (room.state === "saving") words.push(`Saving ${changes} for ${Math.round(this.#milliseconds / 1000)} s.`)
    else if (room.state === "open") words.push(...this.#several())
    else if (waiting > 0) words.push(`${changes} ${waiting > 1 ? "are" : "is"} not saved yet.`)
    return [...words, ...this.#full()].join(" ")
  }

  #several() {
    const objects = this.board.drawn()
    const several = objects.filter(({ shapes }) => shapes.length > 1).length
    if (several === 0) return []
    const have = several > 1 ? "have" : "has"
    return [`${numberOf(several)} of ${countOf(objects.length, "object")} ${have} several versions.`]
  }

  /** Whether the drawing is full, or nearly. Deleted objects count too, until the room is renewed. */
  #full() {
    const { room } = this.board
    const entries = room.record.length + room.pending.length
    const objects = this.board.all().length
    if (entries >= LIMITS.entries) return ["The drawing is full: nothing can be changed any more."]
    if (objects >= LIMITS.objects) return ["The drawing is full: no more objects fit."]
    // Without a connection the line has more to say, and should not break into two.
    const help = room.state === "open" ? [MAKE_SPACE] : []
    if (isNearly(objects, LIMITS.objects)) return [nearlyFull(objects, LIMITS.objects, "objects"), ...help]
    return isNearly(entries, LIMITS.entries) ? [nearlyFull(entries, LIMITS.entries, "entries"), ...help] : []
  }
}

/** Whether nine tenths of a limit are used, and so much more that the room will not be renewed as it is. */
const isNearly = (count, limit) => (count - RENEWED_WITHIN) * 10 >= limit * 9

const nearlyFull = (count, limit, noun) =>
  `The drawing is nearly full: it has ${numberOf(count)} of ${numberOf(limit)} ${noun}.`
