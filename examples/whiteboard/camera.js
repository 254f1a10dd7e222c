/** Which part of the drawing the window shows: the scale, and the position of the drawing's origin in the window. */

import { between, isInside, meet, middleOf } from "./boxes.js"

// Small enough to show two objects at the far ends of the drawing in a small window.
const LEAST = 0.0005
const MOST = 16
const EDGE = 52

// The part of an empty drawing that is shown at first, or its middle.
const PAGE = { x: 0, y: 0, width: 1200, height: 800 }

export class Camera {
  /** Pixels of the window for one unit of the drawing. */
  scale = 1
  /** The position of the drawing's origin in the window, in pixels. */
  x = 0
  y = 0
  /** The size of the window in pixels. */
  width = 0
  height = 0
  #element
  #changed

  /**
   * @param {Element} element the window
   * @param {() => void} changed called when the camera has moved or zoomed
   */
  constructor(element, changed) {
    this.#element = element
    this.#changed = changed
    new ResizeObserver(() => this.#measure()).observe(element)
    this.#measure()
  }

  /** The pointer's position on the drawing. */
  placeOf({ clientX, clientY }) {
    const [x, y] = this.inWindow({ clientX, clientY })
    return [(x - this.x) / this.scale, (y - this.y) / this.scale]
  }

  /** The pointer's position in the window. */
  inWindow({ clientX, clientY }) {
    const { x, y } = this.#element.getBoundingClientRect()
    return [clientX - x - this.#element.clientLeft, clientY - y - this.#element.clientTop]
  }

  /** Converts a box of the drawing to pixels of the window. */
  boxOf({ x, y, width, height }) {
    const { scale } = this
    return { x: this.x + x * scale, y: this.y + y * scale, width: width * scale, height: height * scale }
  }

  /** The window as a box, in pixels. */
  get window() {
    return { x: 0, y: 0, width: this.width, height: this.height }
  }

  /** Whether a box of the drawing is in the window as a whole. */
  showsAll(box) {
    return isInside(this.boxOf(box), this.window)
  }

  /** Whether a box of the drawing is at least partly in the window. */
  shows(box) {
    return meet(this.boxOf(box), this.window)
  }

  /** The centre of the window, as a point of the drawing. */
  get middle() {
    return [(this.width / 2 - this.x) / this.scale, (this.height / 2 - this.y) / this.scale]
  }

  /** Moves the drawing by so many pixels. */
  pan(x, y) {
    this.#become(this.scale, this.x + x, this.y + y)
  }

  /** Scales the drawing by a factor. The given point of the window stays in place. */
  zoom(factor, [x, y] = middleOf(this.window)) {
    const scale = between(LEAST, this.scale * factor, MOST)
    const by = scale / this.scale
    this.#become(scale, x - (x - this.x) * by, y - (y - this.y) * by)
  }

  /** Shows a whole box of the drawing, at this scale at most. */
  fit(box, most = 1) {
    const edge = Math.min(EDGE, this.width / 8, this.height / 8)
    const [wide, high] = [(this.width - 2 * edge) / box.width, (this.height - 2 * edge) / box.height]
    this.#centre(box, between(LEAST, Math.min(wide, high), most))
  }

  /** Shows this point of the drawing in the centre, at this scale. */
  look({ scale, middle: [x, y] }) {
    this.#centre({ x, y, width: 0, height: 0 }, between(LEAST, scale, MOST))
  }

  /** Centres a box of the drawing. Zooms out only if the box does not fit. */
  reach(box) {
    const { width, height } = this.boxOf(box)
    if (width > this.width || height > this.height) this.fit(box, this.scale)
    else this.#centre(box, this.scale)
  }

  #centre(box, scale) {
    const [x, y] = middleOf(box)
    this.#become(scale, this.width / 2 - x * scale, this.height / 2 - y * scale)
  }

  #become(scale, x, y) {
    Object.assign(this, { scale, x, y })
    this.#changed()
  }

  /** Keeps the centre when the window changes its size. The first time it shows the page. */
  #measure() {
    const { clientWidth: width, clientHeight: height } = this.#element
    if (width === 0 || height === 0 || (width === this.width && height === this.height)) return
    const isFirst = this.width === 0
    const [x, y] = [(width - this.width) / 2, (height - this.height) / 2]
    Object.assign(this, { width, height })
    if (isFirst) this.home()
    else this.pan(x, y)
  }

  /** Shows the middle of the page, in its actual size. */
  home() {
    this.#centre(PAGE, 1)
  }
}
