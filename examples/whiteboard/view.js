/** Everything that shows the room. It draws at most once in each animation frame, and only what changed. */

import { keyOf } from "./board.js"
import { boundsOfAll } from "./boxes.js"
import { Camera } from "./camera.js"
import { Edges } from "./edges.js"
import { part, setAttribute } from "./elements.js"
import { Frames } from "./frames.js"
import { Marks } from "./marks.js"
import { PendingChanges } from "./pending_changes.js"
import { Sheet } from "./sheet.js"
import { Specks } from "./specks.js"

const KEY = "whiteboard view "

export class View {
  #changed = new Map()
  #hasBegun = false
  #isPanelOld = true
  #frames = new Frames(() => this.#draw())
  #panel = null
  #overlay = null

  /** @param {import("./board.js").Board} board */
  constructor(board) {
    const look = () => this.look()
    this.board = board
    this.layer = part("shapes")
    this.camera = new Camera(part("board"), look)
    this.sheet = new Sheet(board, part("board"), this.layer)
    this.pending = new PendingChanges(board.room, look)
    this.specks = new Specks(this, part("specks"))
    this.marks = new Marks(this, part("marks"), part("links"))
    this.edges = new Edges(this, part("edges"))
    for (const event of ["focusin", "focusout"]) part("board").addEventListener(event, look)
  }

  /**
   * What is drawn after the drawing, when objects have changed.
   * @param {{ draw: () => void }} panel
   */
  set panel(panel) {
    this.#panel = panel
    this.change([])
  }

  /**
   * What is drawn above the drawing in each frame.
   * @param {{ draw: () => void }} overlay
   */
  set overlay(overlay) {
    this.#overlay = overlay
    this.look()
  }

  /**
   * Requests a drawing of these objects and the panel.
   * @param {any[]} names
   */
  change(names) {
    this.#isPanelOld = true
    this.redraw(names)
  }

  /**
   * Requests a drawing of these objects.
   * @param {any[]} names
   */
  redraw(names) {
    const { connections } = this.board
    for (const name of names) for (const one of [name, ...connections.linesAt(name)]) this.#changed.set(keyOf(one), one)
    this.#frames.ask()
  }

  /** Requests a drawing of the marks and the camera. */
  look() {
    this.#frames.ask()
  }

  /** Draws everything that was requested now. */
  now() {
    this.#frames.now()
  }

  /** Shows all objects, or the page if there are none. */
  fitAll() {
    const shapes = this.board.objects().flatMap((name) => this.board.shapes(name))
    if (shapes.length === 0) this.camera.home()
    else this.camera.fit(boundsOfAll(shapes))
  }

  /**
   * Shows what the page showed before a reload. Otherwise all objects are shown: in their actual size if the window is
   * large enough. Returns whether they are smaller.
   */
  begin(roomName) {
    const before = this.#hasBegun ? null : savedView(roomName)
    this.#hasBegun = true
    if (before !== null) this.camera.look(before)
    const shapes = this.board.objects().flatMap((name) => this.board.shapes(name))
    if (before !== null || shapes.length === 0 || this.camera.showsAll(boundsOfAll(shapes))) return false
    this.fitAll()
    return this.camera.scale < 1
  }

  /** Saves what is shown, for a reload of this tab. */
  save(roomName) {
    const { scale, middle } = this.camera
    try {
      sessionStorage.setItem(KEY + roomName, JSON.stringify([scale, ...middle]))
    } catch {
      // The browser stores nothing, so a reload begins anew.
    }
  }

  /** Shows a version of an object, or all its versions, unless one is visible already. */
  reach(name, version = null) {
    const versions = this.board.shown(name)
    const shapes = this.board.shapes(name).filter((_, place) => version === null || versions[place] === version)
    if (shapes.length > 0 && !shapes.some((shape) => this.camera.shows(boundsOfAll([shape])))) {
      this.camera.reach(boundsOfAll(shapes))
    }
  }

  #draw() {
    const { x, y, scale } = this.camera
    const names = [...this.#changed.values()]
    this.#changed.clear()
    if (names.length > 0) this.sheet.draw(names)
    setAttribute(this.layer, "transform", `translate(${x} ${y}) scale(${scale})`)
    this.specks.draw()
    this.marks.draw()
    this.edges.draw()
    this.#overlay?.draw()
    part("scale").textContent = `${Math.round(scale * 100) || (scale * 100).toFixed(1)} %`
    if (!this.#isPanelOld) return
    this.#isPanelOld = false
    this.#panel?.draw()
  }
}

/** What this tab showed of a room before, or null. */
function savedView(roomName) {
  try {
    const saved = JSON.parse(sessionStorage.getItem(KEY + roomName))
    const isView = Array.isArray(saved) && saved.length === 3 && saved.every(Number.isFinite)
    return isView ? { scale: saved[0], middle: saved.slice(1) } : null
  } catch {
    return null
  }
}
