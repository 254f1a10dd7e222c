/** What the user takes along: the drawing as a picture, as a file that opens again, and on paper. */

import { anew } from "./copies.js"
import { NoDrawing, objectsIn, objectsOf, textOf } from "./drawing_file.js"
import { html, part } from "./elements.js"
import { pictureOf, pngOf, svgText } from "./picture.js"
import { NO_PICTURES, NO_PNG, NOT_OPEN, NOTHING_TO_SAVE, notOpenedWords, openedWords } from "./words.js"

export const DRAWING_TYPE = "application/json"
export const SVG_TYPE = "image/svg+xml"
// A full room in which all objects have all that they take has less.
const MOST_BYTES = 2 ** 27
const REVOKED_AFTER_MILLISECONDS = 60000

export class Files {
  isMenuOpen = false

  /** @param {import("./whiteboard.js").Page} page @param {string} roomName */
  constructor(page, roomName) {
    Object.assign(this, { page, roomName })
    const acts = {
      "save-svg": () => this.#save("svg", SVG_TYPE, svgText(pictureOf(page.board))),
      "save-png": () => this.#savePng(),
      "save-file": () => this.#save("json", DRAWING_TYPE, textOf(objectsOf(page.board))),
      "open-file": () => part("file").click(), print: () => print(),
    }
    for (const [id, act] of Object.entries(acts)) part(id).addEventListener("click", () => this.#do(id, act))
    part("file").addEventListener("change", ({ target }) => this.#choose(target))
    part("files").addEventListener("beforetoggle", ({ newState }) => this.#turnMenu(newState === "open"))
    addEventListener("beforeprint", () => this.#preparePrint())
    addEventListener("afterprint", () => part("paper").replaceChildren())
  }

  /** Opens a file: all its objects are made anew, as far as the room takes them, in one step. */
  async open(file) {
    const { say } = this.page
    const name = `“${file.name}”`
    if (file.type.startsWith("image/")) return say(NO_PICTURES)
    if (file.size > MOST_BYTES) return say(notOpenedWords(name, "It is too large."))
    try {
      this.#make(objectsIn(await file.text()))
    } catch (fault) {
      if (!(fault instanceof NoDrawing || fault instanceof DOMException)) throw fault
      say(notOpenedWords(name, fault instanceof NoDrawing ? fault.message : "The browser cannot read it."))
    }
  }

  #turnMenu(isOpen) {
    this.isMenuOpen = isOpen
    if (isOpen) placeMenu()
  }

  #do(id, act) {
    part("files").hidePopover()
    const isEmpty = this.page.board.objects().length === 0
    if (isEmpty && id !== "open-file") this.page.say(NOTHING_TO_SAVE)
    else act()
  }

  #choose(input) {
    const [file] = input.files
    // The same file can be chosen again.
    input.value = ""
    if (file !== undefined) this.open(file)
  }

  /** A version of an object cannot be made beside another one, so each becomes an object. */
  #make(objects) {
    const { changes, room, say } = this.page
    if (room.site === null || room.state === "closed") return say(NOT_OPEN)
    // Lines that stick to an object stick to its first version.
    const forms = objects.flatMap(([first, ...others]) => [first, ...others.map(withoutId)])
    const made = changes.drawMost(anew(forms, [0, 0]))
    const words = openedWords(made, forms.length, objects.filter(({ length }) => length > 1).length)
    if (words !== "") say(words)
  }

  async #savePng() {
    try {
      download(await pngOf(pictureOf(this.page.board)), `${this.roomName}.png`)
    } catch {
      this.page.say(NO_PNG)
    }
  }

  #save(ending, type, text) {
    download(new Blob([text], { type }), `${this.roomName}.${ending}`)
  }

  #preparePrint() {
    const { board } = this.page
    part("paper").replaceChildren(...(board.objects().length === 0 ? [] : [pictureOf(board)]))
  }
}

const withoutId = ({ kind, attributes }) =>
  ({ kind, attributes: new Map([...attributes].filter(([key]) => key !== "id")) })

function download(blob, name) {
  const href = URL.createObjectURL(blob)
  html("a", { href, download: name }).click()
  setTimeout(() => URL.revokeObjectURL(href), REVOKED_AFTER_MILLISECONDS)
}

/** The menu is below its button, inside the window. */
function placeMenu() {
  const { left, bottom } = part("take-along").getBoundingClientRect()
  Object.assign(part("files").style, { left: `min(${left}px, 100vw - 220px)`, top: `${bottom + 4}px` })
}
