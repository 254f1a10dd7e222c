/**
 * The note of a person, which all pages in the room can read. It is a JSON text of at most 256 bytes of UTF-8:
 *
 *     {"n":NAME,"c":COLOUR,"p":[X,Y],"s":[SITE,NUMBER,PLACE],"d":[SITE,NUMBER,PLACE,X,Y,WIDTH,HEIGHT,MADE],"w":SKETCH}
 *
 * - `n` is the name, cut so that all the rest fits. `c` is the colour, as its index in `PALETTE`.
 * - `p` is the pointer, on the drawing.
 * - `s` is the selected object, by its name, and the place of the picked version among those that are shown.
 * - `d` is the version that is being dragged, the box that its shape has now, and how many operations the person had
 *   made before. A page that shows more of them shows the end of the drag.
 * - `w` is what the person draws, as sketch_notes.js has it, in what is left of the bytes.
 *
 * Each key may be missing. All numbers are whole, and lengths are in units of the drawing. Anybody can write any note,
 * so what is not of this form counts as missing.
 */

import { LIMITS } from "../../clients/js/grace.js"
import { between } from "./boxes.js"
import { listOfSketch, sketchIn } from "./sketch_notes.js"

/** Colours of people: all are readable on white, and white is readable on them. */
export const PALETTE = ["#c92a2a", "#0b7285", "#862e9c", "#2b7a2b", "#b35900", "#4c3fc4", "#c2186b", "#6b6b00"]

const NOTE_BYTES = 256
// As JSON. The longest note without a name and a sketch has 105 bytes.
const NAME_BYTES = 140
const SKETCH_KEY_BYTES = ',"w":'.length
const NAME_LETTERS = 40
const FAR = 100000
const ENCODER = new TextEncoder()

const LENGTH = [-FAR, FAR]
const VERSION = [[1, LIMITS.sites], [1, LIMITS.entries], [0, LIMITS.versions - 1]]
const RANGES = {
  colour: [0, PALETTE.length - 1], pointer: [LENGTH, LENGTH], selected: VERSION,
  drag: [...VERSION, LENGTH, LENGTH, LENGTH, LENGTH, [0, LIMITS.entries]],
}

/**
 * What a note says.
 * @typedef {{ object: [number, number], place: number }} Held
 * @typedef {{ name: string, colour: number | null, pointer: [number, number] | null, selected: Held | null,
 *   drag: (Held & { box: import("./boxes.js").Box, made: number }) | null, sketch: any }} Note
 */

/** The colour of a person who has chosen none. */
export const colourOf = (site) => (site - 1) % PALETTE.length

/** A name without what could not be seen, and cut so that it fits into a note. It may be empty. */
export function fittingName(text) {
  const letters = [...visible(text)].slice(0, NAME_LETTERS)
  while (ENCODER.encode(JSON.stringify(letters.join(""))).length > NAME_BYTES) letters.pop()
  return letters.join("").trim()
}

/** Removes control characters, and all that is invisible. Joiners may be part of a letter. */
function visible(text) {
  const plain = text.replace(/[^\P{C}\u200c\u200d]/gu, " ").replace(/\s+/g, " ").trim()
  return /[^\s\u200c\u200d\p{M}\u115f\u1160\u2800\u3164\uffa0]/u.test(plain) ? plain : ""
}

/** @param {Partial<Note>} note @returns {string} */
export function writeNote({ name = "", colour = null, pointer = null, selected = null, drag = null, sketch = null }) {
  const note = {
    n: fittingName(name) || undefined,
    c: colour ?? undefined,
    p: pointer?.every(isInside) ? pointer.map(Math.round) : undefined,
    s: selected === null ? undefined : placeOf(selected),
    d: drag === null ? undefined : [...placeOf(drag), ...lengthsOf(drag.box), drag.made],
  }
  // Nobody drags and draws at once.
  if (sketch === null || drag !== null) return JSON.stringify(note)
  const used = ENCODER.encode(JSON.stringify(note)).length + SKETCH_KEY_BYTES
  return JSON.stringify({ ...note, w: listOfSketch(sketch, NOTE_BYTES - used) })
}

const isInside = (length) => Math.abs(length) <= FAR
const placeOf = ({ object, place }) => [...object, place]
const lengthsOf = ({ x, y, width, height }) =>
  [x, y, width, height].map((length) => between(-FAR, Math.round(length), FAR))

/** @param {string} text any text @returns {Note} */
export function readNote(text) {
  const { n, c, p, s, d, w } = objectOf(text)
  return {
    name: typeof n === "string" ? fittingName(n) : "",
    colour: isWholeIn(c, RANGES.colour) ? c : null,
    pointer: areWholeIn(p, RANGES.pointer) ? p : null,
    selected: areWholeIn(s, RANGES.selected) ? heldOf(s) : null,
    drag: areWholeIn(d, RANGES.drag) ? dragOf(d) : null,
    sketch: sketchIn(w),
  }
}

function objectOf(text) {
  try {
    return JSON.parse(text) ?? {}
  } catch {
    return {}
  }
}

const isWholeIn = (number, [least, most]) => Number.isInteger(number) && number >= least && number <= most
const areWholeIn = (list, ranges) =>
  Array.isArray(list) && list.length === ranges.length && ranges.every((range, place) => isWholeIn(list[place], range))
const heldOf = ([site, number, place]) => ({ object: [site, number], place })
const dragOf = ([site, number, place, x, y, width, height, made]) =>
  ({ object: [site, number], place, box: { x, y, width, height }, made })
