/** The panel next to the drawing: the list of objects, or the selected object and its versions. */

import { keyOf } from "./board.js"
import { cardsOf, pictureOf } from "./cards.js"
import { alignmentRows, choicesOf } from "./choices.js"
import { combinationsOf } from "./combinations.js"
import { button, html } from "./elements.js"
import { shapeOfForm } from "./deleted_objects.js"
import { ordersOf } from "./stacking.js"
import { textArea } from "./text_area.js"
import { TextEdit } from "./text_edit.js"
import { textIn, truncate } from "./texts.js"
import { countOf, letterOf, nextWords, numberOf, versionWords, wordsOf } from "./words.js"

const HELP =
  "Drag it to move it. Drag a handle to resize it. Double-click it to write on it. " +
  "The arrow keys move it, or resize it with Shift. The Delete key deletes it."

const HELP_SEVERAL =
  "Drag one to move all. A colour, the arrow keys and the Delete key apply to all. Shift and a click adds an object, " +
  "or takes it out."

// The list has at most this many objects, the newest.
const LISTED = 300

export class Panel {
  // What the user is writing in the panel, or null.
  #edit = null
  // Releases the hold while a button is pressed.
  #pressed = null
  #isDeletedListOpen = false
  // The scroll position. Reading it from the element would force a layout of the page.
  #top = 0
  #shown = ""

  /** @param {import("./whiteboard.js").Page} page @param {HTMLElement} element */
  constructor(page, element) {
    this.page = page
    this.board = page.board
    this.element = element
    element.addEventListener("scroll", () => (this.#top = element.scrollTop))
    element.addEventListener("pointerdown", () => this.#press())
    addEventListener("click", () => this.#lift())
    // If the press leads to no click.
    for (const event of ["pointerup", "pointercancel"]) addEventListener(event, () => setTimeout(() => this.#lift()))
  }

  /** A press keeps the panel as it is until the release, and holds other people's changes back. */
  #press() {
    this.#pressed ??= this.page.room.hold()
  }

  /** The click is handled before the changes that were held back. */
  #lift() {
    const release = this.#pressed
    if (release === null) return
    this.#pressed = null
    release()
    this.page.view.change([])
  }

  /** Draws the panel again, unless the user is typing or pressing in it. */
  draw() {
    if (this.#edit !== null || this.#pressed !== null) return
    const focused = document.activeElement?.dataset?.focus
    const { selected, selection } = this.board
    const shown = String(selection.names)
    // What the pointer is on is replaced, and then tells again.
    this.page.view.sheet.showAlone(null, null)
    this.element.replaceChildren(...(selected !== null ? this.#object(selected)
      : selection.size > 0 ? this.#several(selection) : this.#objects()))
    if (this.#top !== 0) this.element.scrollTop = this.#top = this.#shown === shown ? this.#top : 0
    this.#shown = shown
    if (focused !== undefined && document.activeElement === document.body) this.#focus(focused)
  }

  /** Restores the focus inside the panel, or moves it to the panel itself. */
  #focus(focused) {
    const next = this.element.querySelector(`[data-focus="${focused}"]`) ?? this.element
    next.focus({ preventScroll: true })
  }

  // ---- the list

  #objects() {
    const names = this.board.objects()
    const [next, gone] = [this.#nextShape(), this.#deletedObjects()]
    if (names.length > 0) return [...next, ...this.#list(names), ...gone]
    const { isLoaded, state } = this.page.room
    if (!isLoaded) return [html("h2", { textContent: state === "closed" ? "No drawing" : "Loading" })]
    const help = "Choose a tool above, then drag on the paper."
    return [...next, html("h2", { textContent: "Nothing is drawn yet" }), html("p", { textContent: help }), ...gone]
  }

  #list(names) {
    const heading = html("h2", { textContent: `Objects (${numberOf(names.length)})` })
    const items = names.slice(-LISTED).map((name) => html("li", {}, this.#item(name)))
    const list = html("ul", { className: "list" }, ...items)
    const words = `These are the newest ${LISTED}. Choose the others in the drawing.`
    return [heading, ...(names.length > LISTED ? [html("p", { textContent: words })] : []), list]
  }

  #item(name) {
    const [shape, ...others] = this.board.shapes(name)
    const item = button("", keyOf(name), () => {
      this.page.select(name)
      this.page.view.reach(name)
    })
    item.append(html("span", { textContent: wordsOf(shape) }))
    const marks = this.board.survivors(name).length > 0 ? ["deleted and changed"] : []
    if (others.length > 0) marks.push(`${others.length + 1} versions`)
    item.append(...marks.map((textContent) => html("span", { className: "count", textContent })))
    return item
  }

  /** The list of deleted objects. Its content is computed when the user opens it. */
  #deletedObjects() {
    const names = this.page.deletedObjects.objects()
    if (names.length === 0) return []
    const summary = html("summary", { textContent: `Deleted (${names.length})`, dataset: { focus: "gone" } })
    summary.addEventListener("click", (event) => {
      event.preventDefault()
      this.#isDeletedListOpen = !this.#isDeletedListOpen
      this.page.view.change([])
    })
    const list = this.#isDeletedListOpen ? [this.#deletedList(names)] : []
    return [html("details", { className: "gone", open: this.#isDeletedListOpen }, summary, ...list)]
  }

  #deletedList(names) {
    const items = names.flatMap((name) => this.page.deletedObjects.formsOf(name).map((form, place) => {
      const shape = shapeOfForm(form)
      const back = button("Bring back", `back-${keyOf(name)}-${place}`, () => this.page.deletedObjects.bringBack(form))
      back.setAttribute("aria-label", `Bring back ${wordsOf(shape)}`)
      return html("li", {}, pictureOf([shape], 0), html("span", { textContent: wordsOf(shape) }), back)
    }))
    return html("ul", {}, ...items)
  }

  // ---- several objects

  #several({ size }) {
    const { board, changes, clipboard, grouping } = this.page
    const unpicked = size - board.chosen.length
    const note = unpicked === 0 ? "" : ` ${countOf(unpicked, "object")} with several versions will stay as ` +
      `${unpicked > 1 ? "they are" : "it is"}: pick a version first.`
    const group = grouping.isOneGroup
      ? button("Ungroup", "ungroup", () => grouping.ungroup()) : button("Group", "group", () => grouping.group())
    group.title = grouping.isOneGroup ? "Take the group apart (Ctrl+Shift+G)" : "One click then selects all (Ctrl+G)"
    const drop = button("Delete", "delete", () => changes.dropAll(board.chosen))
    drop.className = "delete"
    return [this.#heading(countOf(size, "object")), html("p", { textContent: HELP_SEVERAL + note }),
      html("div", { className: "actions" }, button("Copy", "copy", () => clipboard.copy()),
        button("Duplicate", "duplicate", () => clipboard.duplicate()), group, drop),
      ...alignmentRows(this.page.alignment), ...this.#choicesOfSeveral()]
  }

  #choicesOfSeveral() {
    const shapes = this.board.chosen.map(({ name, version }) =>
      this.board.shapes(name)[this.board.shown(name).indexOf(version)])
    return shapes.length === 0 ? [] : this.#choices(shapes)
  }

  #choices(shapes) {
    const { changes, style, tools } = this.page
    return choicesOf(shapes, tools.colour, (attributes) => {
      style.choose(attributes, shapes)
      changes.change(attributes)
    })
  }

  /** How the next object will look that the tool draws. */
  #nextShape() {
    const { style, tools, view } = this.page
    const shape = style.shapeOf(tools.tool)
    if (shape === null) return []
    const rows = choicesOf([shape], tools.colour, (attributes) => {
      style.choose(attributes, [shape])
      if ("arrow" in attributes) tools.use(attributes.arrow ? "arrow" : "line")
      view.change([])
    })
    return [html("section", { className: "next" }, html("h2", { textContent: nextWords(shape) }), ...rows)]
  }

  // ---- one object

  #object(name) {
    const versions = this.board.shown(name)
    const picked = this.board.picked(name)
    const shape = this.board.shapes(name)[Math.max(0, versions.indexOf(picked))]
    const parts = [this.#heading(wordsOf(shape)), ...this.#notice(name, versions), this.#textField(name, picked)]
    const several = versions.length > 1 ? this.#versions(name, versions, picked) : []
    if (picked === null) return [...parts, ...several]
    const help = versions.length > 1 ? [] : [html("p", { textContent: HELP })]
    return [...parts, this.#order(name), ...several, ...this.#choices([shape]), ...help,
      html("div", { className: "actions" }, this.#end(name, versions, picked))]
  }

  #heading(words) {
    const all = button("All objects", "all", () => this.page.selectAll([]))
    return html("header", {}, html("h2", { textContent: words }), all)
  }

  /** The notice about a concurrent deletion, with a button for each decision. */
  #notice(name, versions) {
    const survivors = this.board.survivors(name)
    if (survivors.length === 0) return []
    const which = versions.length === 1 ? "it" : versionWords(survivors.map((one) => versions.indexOf(one)))
    const words = versions.length === 1
      ? "Somebody deleted this while others changed it. You see it as they changed it."
      : `Somebody deleted a version while others changed it. Still here: ${which}.`
    const keep = button(`Keep ${which}`, "keep", () => this.page.keep(name, survivors))
    const drop = button(`Delete ${which} too`, "delete-too", () => this.page.changes.drop(name, survivors))
    drop.className = "delete"
    return [html("section", { className: "notice" }, html("p", { textContent: words }),
      html("div", { className: "actions" }, keep, drop))]
  }

  /** The buttons that move an object to the front or to the back, and copy it. */
  #order(name) {
    const { changes, clipboard } = this.page
    const { front, back } = ordersOf(this.board, name)
    return html("div", { className: "actions" },
      button("To front", "front", () => changes.change({ z: front })),
      button("To back", "back", () => changes.change({ z: back })),
      button("Copy", "copy", () => clipboard.copy()),
      button("Duplicate", "duplicate", () => clipboard.duplicate()))
  }

  /** The button that deletes the picked version. A key that is held down does not press that of the next version. */
  #end(name, versions, picked) {
    const letter = letterOf(versions.indexOf(picked))
    const [words, focus] = versions.length > 1 ? [`Delete version ${letter}`, `delete-${letter}`] : ["Delete", "delete"]
    const drop = button(words, focus, () => this.page.changes.drop(name, [picked]))
    drop.className = "delete"
    return drop
  }

  /** The text field. Leaving it commits the text. The panel stays as it is meanwhile. */
  #textField(name, picked) {
    const { seen } = this.page.room
    const { field, left } = textArea({
      text: picked === null ? "" : textIn(picked.attributes), label: "Text",
      end: () => this.#endEdit(truncate(field.value)),
      write: () => (this.#edit ??= new TextEdit(this.page, name, picked, seen)),
    })
    Object.assign(field, { disabled: picked === null })
    field.dataset.focus = "text"
    return html("label", {}, html("span", { textContent: "Text" }), field, left)
  }

  /** Ends the writing with this text. */
  #endEdit(text) {
    const edit = this.#edit
    if (edit === null) return
    this.#edit = null
    edit.end(text)
    this.page.view.change([edit.name])
  }

  #versions(name, versions, picked) {
    const letter = picked === null ? null : letterOf(versions.indexOf(picked))
    const words = letter === null
      ? "People changed this at the same time. Pick the one to work on. The others stay as they are."
      : `You are working on version ${letter}. The others stay as they are.`
    const makerOf = (version) => this.page.changes.makers.wordsOf(version, versions)
    const pick = (version) => {
      this.page.select(name, version)
      this.page.view.reach(name, version)
    }
    const keep = (version) => this.page.changes.drop(name, versions.filter((other) => other !== version))
    const point = (version) => this.page.view.sheet.showAlone(name, version)
    return [html("h3", { textContent: `${versions.length} versions` }), html("p", { textContent: words }),
      ...combinationsOf({ versions, picked, pick, point }),
      cardsOf({ versions, shapes: this.board.shapes(name), picked, makerOf, pick, keep, point })]
  }
}
