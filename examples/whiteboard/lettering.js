/** How texts are broken into lines, and how large they are. */

export const FONT = "system-ui, 'DejaVu Sans', sans-serif"
// A text is never wider than this, unless the user has made it so.
const MOST_WIDTH = 600
// The lines of the last texts, by text, size and width. More than so many are forgotten.
const KNOWN = 500
const known = new Map()
let scratch = null

/** The height of a line in units of the letters' size. */
export const LINE = 1.25

/** The sizes that a user can choose, and the size of letters in units of the drawing. */
export const TEXT_SIZES = { small: 14, medium: 20, large: 32 }
export const USUAL_SIZE = "medium"

// Letters on a shape are made smaller until they fit its height.
const SIZES = [32, 26, 20, 17, 14, 12, 10]

/** The largest size, up to a chosen one, in which all lines fit the height, or else the smallest size. */
export function lettering(text, width, height, chosen) {
  const sizes = SIZES.filter((size) => size <= TEXT_SIZES[chosen])
  const isFitting = (size) => linesOf(text, width, size).length * size * LINE <= height
  const size = sizes.find(isFitting) ?? sizes.at(-1)
  return { size, lines: linesOf(text, width, size) }
}

/**
 * The width and height of a text that stands for itself.
 * @param {string} text
 * @param {string} chosen its size
 * @param {number | null} width in which it is broken, if the user has chosen one
 */
export function sizeOfText(text, chosen, width) {
  const size = TEXT_SIZES[chosen]
  const lines = linesOf(text, width ?? MOST_WIDTH, size)
  const own = Math.max(size, ...lines.map((line) => widthOf(line, size)))
  return { width: width ?? Math.ceil(own) + 1, height: Math.ceil(lines.length * size * LINE) }
}

/** Breaks a text into lines of this width: at its own breaks, between words, or inside words that are too long. */
export function linesOf(text, width, size) {
  const key = `${size} ${width} ${text}`
  if (!known.has(key)) {
    if (known.size >= KNOWN) known.clear()
    known.set(key, text.split("\n").flatMap((line) => brokenLines(line, width, size)))
  }
  return known.get(key)
}

function brokenLines(line, width, size) {
  const isTooLong = (words) => widthOf(words.trimEnd(), size) > width
  const pieces = line.split(/(?<=\s)/).flatMap((word) => (isTooLong(word) ? [...word] : [word]))
  const lines = [""]
  for (const piece of pieces) {
    const longer = lines.at(-1) + piece
    if (lines.at(-1) !== "" && isTooLong(longer)) lines.push(piece)
    else lines[lines.length - 1] = longer
  }
  return lines.map((one) => one.trim())
}

function widthOf(words, size) {
  scratch ??= document.createElement("canvas").getContext("2d")
  scratch.font = `${size}px ${FONT}`
  return scratch.measureText(words).width
}
