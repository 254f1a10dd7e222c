/** What comes from other programs: pasted or dropped texts, copies, files and pictures. */

import { formsIn } from "./clipboard.js"
import { NoDrawing, isDrawingText } from "./drawing_file.js"
import { isInTextField } from "./gestures.js"
import { placeOf, shapeOf } from "./shapes.js"
import { TEXT_BYTES, plain, textAttributes, truncate } from "./texts.js"
import { CUT_TEXT, NO_PICTURES, notOpenedWords } from "./words.js"

export class Incoming {
  /** @param {import("./whiteboard.js").Page} page */
  constructor(page) {
    this.page = page
    document.addEventListener("paste", (event) => this.#hear(event, event.clipboardData, page.camera.middle))
    document.addEventListener("drop", (event) => this.#hear(event, event.dataTransfer, page.camera.placeOf(event)))
    // Otherwise the browser would leave the page for a dropped file.
    document.addEventListener("dragover", (event) => isInTextField(event.target) || event.preventDefault())
  }

  #hear(event, data, place) {
    if (isInTextField(event.target)) return
    event.preventDefault()
    if (!this.page.gestures.isBusy) this.#take(data, event.type === "paste", place)
  }

  /** A copy from an office program has a text and a picture of it: the text counts. */
  #take(data, isPaste, place) {
    const { clipboard, files, say } = this.page
    const text = data.getData("text/plain")
    const [file] = data.files
    if (isDrawingText(text)) this.#paste(text)
    else if (text.trim() !== "") this.write(text, place)
    else if (file?.type.startsWith("image/")) say(NO_PICTURES)
    else if (file !== undefined) files.open(file)
    else if (isPaste) clipboard.paste()
  }

  #paste(text) {
    try {
      this.page.clipboard.pasteForms(formsIn(text))
    } catch (fault) {
      if (!(fault instanceof NoDrawing)) throw fault
      this.page.say(notOpenedWords("What you pasted", fault.message))
    }
  }

  /** Makes a text of its own, with its middle at a place of the drawing. What is too long is cut with a message. */
  write(text, [x, y]) {
    const { changes, say, tools } = this.page
    // No letter has less than a byte, so nothing behind these could fit.
    const fit = truncate(plain(text).slice(0, TEXT_BYTES + 1))
    const attributes = textAttributes(fit)
    const { width, height } = shapeOf("text", new Map(Object.entries(attributes)))
    changes.draw("text", { ...placeOf({ x: x - width / 2, y: y - height / 2 }), fill: tools.colour, ...attributes })
    if (fit !== plain(text)) say(CUT_TEXT)
  }
}
