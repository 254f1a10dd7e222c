/**
 * Lines that stick to shapes. Under `from` and `to` a line has the text that the shape has under `id`. That end is
 * drawn at the shape's edge, towards the other end, and follows the shape. Where the shape is gone, the line is drawn
 * by its own position and size. The text is the name that the shape had when the first line stuck to it, with the
 * number of the room. So two people who let lines stick to it at once give it the same text, which it keeps in later
 * rooms.
 */

import { keyOf } from "./board.js"
import { boundsOf, middleOf } from "./boxes.js"
import { roomNumberOf } from "./maker_keys.js"
import { NO_FILL } from "./shapes.js"

const END_KEYS = ["from", "to"]
const SIDES = ["x", "y", "width", "height"]
const THIN = ["line", "pen"]

/** Whether a line can stick to an object of this kind. */
export const canHold = (kind) => !THIN.includes(kind)

/**
 * Whether an end of a line sticks to a shape. It does not if the other end is within the shape: the line would leave it
 * on another side. A line without an arrow does not stick to an outline, as it may be a part of it.
 * @param {any} shape
 * @param {any} line with its arrow
 * @param {[number, number]} other where its other end is
 */
export const isHeld = (shape, line, other) =>
  canHold(shape.kind) && (line.arrow || shape.fill !== NO_FILL) && acrossOf(shape, other) >= 1

export class Connections {
  // By text: the shape that has it.
  #shapes = new Map()
  // By text: the lines that stick to this shape, by key.
  #lines = new Map()
  // By object: the texts under which these maps have it, or last had it.
  #known = new Map()
  // By a line's list of shapes: the list in which they end at the shapes' edges.
  #drawn = new WeakMap()

  /** @param {import("./board.js").Board} board */
  constructor(board) {
    this.board = board
  }

  /** Objects have changed, or all have if some have other names. */
  update(names, isRenamed) {
    if (isRenamed) for (const map of [this.#shapes, this.#lines, this.#known]) map.clear()
    for (const name of isRenamed ? this.board.objects() : names) {
      this.#forget(name)
      if (this.board.shown(name).length > 0) this.#learn(name)
    }
  }

  /** The text of a shape, also before a line sticks to it. */
  textOf(name) {
    return this.board.ownShapes(name).find(({ id }) => id !== "")?.id ?? this.#usualText(name)
  }

  /** The lines that stick to an object, or would if it were not deleted. */
  linesAt(name) {
    const texts = this.#known.get(keyOf(name))?.shape ?? []
    return texts.flatMap((text) => [...(this.#lines.get(text)?.values() ?? [])])
  }

  /** The shapes of a line as they are drawn. It is the same list as long as they are the same. */
  drawn(shapes) {
    if (!shapes.some(isStuck)) return shapes
    const [now, before] = [shapes.map((shape) => this.ended(shape)), this.#drawn.get(shapes)]
    const isSame = before?.every((shape, place) => SIDES.every((side) => shape[side] === now[place][side])) ?? false
    if (!isSame) this.#drawn.set(shapes, now)
    return isSame ? before : now
  }

  /** A line with its ends at the edges of the shapes to which they stick. */
  ended(line) {
    const [from, to] = END_KEYS.map((key) => this.#shapeOf(line[key]))
    if (from === null && to === null) return line
    const [start, end] = [[line.x, line.y], [line.x + line.width, line.y + line.height]]
    const [x, y] = from === null ? start : edgeOf(from, to === null ? end : middleOf(boundsOf(to)))
    const [endX, endY] = to === null ? end : edgeOf(to, from === null ? start : middleOf(boundsOf(from)))
    return { ...line, x, y, width: endX - x, height: endY - y }
  }

  #usualText(name) {
    return [roomNumberOf(this.board.room.name), ...name].join("-")
  }

  #shapeOf(text) {
    const name = text === "" ? undefined : this.#shapes.get(text)
    if (name === undefined) return null
    const shapes = this.board.ownShapes(name)
    return shapes[Math.max(0, this.board.shown(name).indexOf(this.board.picked(name)))] ?? null
  }

  #learn(name) {
    const shapes = this.board.ownShapes(name)
    const [{ kind }] = shapes
    const isLine = kind === "line"
    if (!isLine && !canHold(kind)) return
    const all = isLine ? shapes.flatMap(({ from, to }) => [from, to]) : shapes.map(({ id }) => id)
    const texts = all.filter((text) => text !== "")
    if (!isLine) texts.push(this.#usualText(name))
    this.#known.set(keyOf(name), isLine ? { line: texts } : { shape: texts })
    for (const text of texts) {
      if (!isLine) this.#shapes.set(text, name)
      else this.#lines.set(text, (this.#lines.get(text) ?? new Map()).set(keyOf(name), name))
    }
  }

  #forget(name) {
    const { shape = [], line = [] } = this.#known.get(keyOf(name)) ?? {}
    for (const text of shape) if (keyOf(this.#shapes.get(text) ?? []) === keyOf(name)) this.#shapes.delete(text)
    for (const text of line) this.#lines.get(text)?.delete(keyOf(name))
  }
}

const isStuck = ({ from, to }) => from !== "" || to !== ""

/** The point of a shape's edge on the way from its middle to another point, in whole units. */
function edgeOf(shape, [x, y]) {
  const [middleX, middleY] = middleOf(boundsOf(shape))
  const across = acrossOf(shape, [x, y]) || Infinity
  return [middleX + (x - middleX) / across, middleY + (y - middleY) / across].map(Math.round)
}

/** How far a point is from the middle of a shape: 0 in the middle, 1 on the edge. */
function acrossOf(shape, [x, y]) {
  const box = boundsOf(shape)
  const [middleX, middleY] = middleOf(box)
  const [acrossX, acrossY] = [
    Math.abs(x - middleX) / (box.width / 2 || 1), Math.abs(y - middleY) / (box.height / 2 || 1),
  ]
  return shape.kind === "ellipse" ? Math.hypot(acrossX, acrossY) : Math.max(acrossX, acrossY)
}
