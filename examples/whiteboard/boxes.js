/** Axis-aligned boxes, in units of the drawing or pixels of the window. */

/** The bounding box of a shape, whose width and height may be negative. */
export function boundsOf({ x, y, width, height }) {
  return { x: Math.min(x, x + width), y: Math.min(y, y + height), width: Math.abs(width), height: Math.abs(height) }
}

/** The bounding box of several shapes. */
export function boundsOfAll(shapes) {
  const all = shapes.map(boundsOf)
  const x = all.reduce((least, one) => Math.min(least, one.x), Infinity)
  const y = all.reduce((least, one) => Math.min(least, one.y), Infinity)
  const right = all.reduce((most, one) => Math.max(most, one.x + one.width), -Infinity)
  const bottom = all.reduce((most, one) => Math.max(most, one.y + one.height), -Infinity)
  return { x, y, width: right - x, height: bottom - y }
}

/** The points that resize a shape, by name: the ends of a line, the corners of a box, or the last one of a text. */
export function handlesOf(shape) {
  const { x, y, width, height } = shape.kind === "line" ? shape : boundsOf(shape)
  const end = { end: [x + width, y + height] }
  if (shape.kind === "line") return { start: [x, y], ...end }
  if (shape.kind === "text") return end
  return { ...end, "top-left": [x, y], "top-right": [x + width, y], "bottom-left": [x, y + height] }
}

/** Whether a corner is at the left, and whether it is at the top. */
export const sidesOf = (corner) => [corner.endsWith("left"), corner.startsWith("top")]

export const middleOf = ({ x, y, width, height }) => [x + width / 2, y + height / 2]

/** The box enlarged by a gap on each side. */
export const grown = ({ x, y, width, height }, gap) =>
  ({ x: x - gap, y: y - gap, width: width + 2 * gap, height: height + 2 * gap })

/** Whether two boxes intersect. */
export const meet = (one, other) =>
  one.x <= other.x + other.width && other.x <= one.x + one.width &&
  one.y <= other.y + other.height && other.y <= one.y + one.height

/** Whether a box is inside another. */
export const isInside = (one, other) =>
  one.x >= other.x && one.x + one.width <= other.x + other.width &&
  one.y >= other.y && one.y + one.height <= other.y + other.height

/** Clamps a number. The lower bound wins if the bounds cross. */
export const between = (least, value, most) => Math.max(least, Math.min(most, value))
