/** Texts about objects and their versions. */

import { withoutMakers } from "./maker_keys.js"
import { ARROW_WORDS, COLOURS } from "./shapes.js"
import { POINT_KEYS } from "./pen.js"
import { TEXT_BYTES, TEXT_KEYS, textIn } from "./texts.js"

const KINDS = { rect: "Rectangle", ellipse: "Ellipse", line: "Line", pen: "Stroke", text: "Text" }
const SEVERAL_STROKES = "Strokes"
const LONGEST = 40
const LONGEST_OF_VERSION = 200

// The lines that describe a version: label, keys, and the separator of their values.
const LINES = [
  ["position", ["x", "y"], ", "], ["size", ["width", "height"], " × "], ["colour", ["fill"], ""],
]
const TOLD = [...LINES.flatMap(([, keys]) => keys), ...TEXT_KEYS, ...POINT_KEYS, "id", "from", "to"]

/**
 * The letter of a version: A to Z, then AA, AB and so on.
 * @param {number} place
 */
export const letterOf = (place) =>
  place < 26 ? String.fromCharCode(65 + place) : letterOf(Math.floor(place / 26) - 1) + letterOf(place % 26)

/** A number with thousands separators. `Intl` would take longer to load than a small room. */
export const numberOf = (count) => String(count).replace(/\B(?=(\d{3})+$)/g, ",")

/** A number with its noun, in singular or plural. */
export const countOf = (count, one, several = `${one}s`) => `${numberOf(count)} ${count === 1 ? one : several}`

/** A short description of a shape. */
export function wordsOf({ kind, text, strokes, arrow }) {
  const word = strokes.length > 1 ? SEVERAL_STROKES : arrow ? ARROW_WORDS.get(arrow) : KINDS[kind] ?? kind
  return text === "" ? word : `${word} “${shortened(text, LONGEST)}”`
}

/** What the chosen tool draws next. */
export const nextWords = ({ kind, arrow }) => `Next ${(arrow ? ARROW_WORDS.get(arrow) : KINDS[kind]).toLowerCase()}`

/** A text in one line, of at most so many letters. */
function shortened(text, most) {
  const letters = [...text.replace(/\s+/g, " ")]
  return letters.length > most ? `${letters.slice(0, most).join("")}…` : letters.join("")
}

/** What is left of a text's bytes. */
export const leftWords = (bytes) => `${numberOf(bytes)} of ${numberOf(TEXT_BYTES)} bytes left`

/** How one writes, and ends it. */
export const WRITING = "Enter makes a line. Escape, or a click elsewhere, ends the text."

/** That a text was cut. */
export const CUT_TEXT = `The text is too long, and was cut after ${numberOf(TEXT_BYTES)} bytes.`

/** That the room refused a new object, or a change of one. */
export const refusedWords = (shape, reason, isNew = false) =>
  `${isNew ? "" : "Your change of "}${wordsOf(shape)} could not be added. ${reason}`

/** What the page says before it deletes what could not be brought back. */
export const FINAL_DELETION = "Nothing new fits into this drawing, so this deletion can't be undone. "

/** That nothing was pasted. */
export const NOT_ALL_FIT = "Not all of this fits into the drawing, so none of it was pasted."

/** Of pasted, dropped or opened pictures. */
export const NO_PICTURES = "Pictures are not supported, so nothing was added."

/** Of the first view of a drawing that is larger than the window. */
export const SMALLER_VIEW = "This is the whole drawing. Press 1 for its actual size, 0 for all of it again."

export const NOTHING_TO_SAVE = "Nothing is drawn yet."
export const NO_PNG = "The browser could not make this picture. SVG may work."
export const NOT_OPEN = "The drawing is not open, so nothing can be added."

/** That a file was not opened, and why. */
export const notOpenedWords = (what, reason) => `${what} was not opened. ${reason}`

/** What of a file could not be made; empty if all was made. */
export function openedWords(made, all, withVersions) {
  const words = []
  if (made < all) words.push(`Only ${numberOf(made)} of ${countOf(all, "object")} fit into this drawing.`)
  if (withVersions > 0) {
    words.push(`${countOf(withVersions, "object")} had several versions. Each version is now an object.`)
  }
  return words.join(" ")
}

/** What 'Keep only this' does, and its undo. */
export const keepWords = (letter, others) =>
  `Keep version ${letter} and delete the ${others > 1 ? "others" : "other"}. ` +
  `Undo brings ${others > 1 ? "them back as new objects" : "it back as a new object"}.`

/** That deleted versions of a shape came back, but not as its versions. */
export const separateWords = (count, shape) =>
  `${countOf(count, "version")} of ${wordsOf(shape)} came back as ${count > 1 ? "new objects" : "a new object"}. ` +
  "Nothing can go on from a deleted version."

/** That the drawing goes on in another room, where so many versions became objects of their own. */
export function renewedWords(copies) {
  const words = "This drawing goes on in a new room, under the same link."
  if (copies === 1) return `${words} One of your changes met one of somebody else's, and is a new object there.`
  return `${words} ${numberOf(copies)} of your changes met those of others, and are new objects there.`
}

/** A person who has not told a name. */
export const guestWords = (site) => `Guest ${site}`

// More people than these are only counted.
const NAMED = 3

/** People by their names: `Anna, Ben and Carla`. */
export function peopleWords(names) {
  if (names.length > NAMED) return countOf(names.length, "person", "people")
  return names.length < 2 ? names.join() : `${names.slice(0, -1).join(", ")} and ${names.at(-1)}`
}

const CLOCK_LETTERS = 5
const DATE_LETTERS = 10

/** The time at which something was seen: `10:32`, with a date if it is another day than today. */
export function timeWords({ time, wasThere }) {
  const date = new Date(time)
  const clock = date.toTimeString().slice(0, CLOCK_LETTERS)
  const day = date.toDateString()
  const isToday = day === new Date().toDateString()
  const words = isToday ? clock : `${day.slice(0, DATE_LETTERS)}, ${clock}`
  return wasThere ? `before ${words}` : words
}

/** Who else moves an object, or otherwise who has selected it. */
export function heldWords(moving, selecting) {
  const names = moving.length > 0 ? moving : selecting
  if (moving.length > 0) return `${peopleWords(names)} ${names.length > 1 ? "are" : "is"} moving this`
  return `${peopleWords(names)} ${names.length > 1 ? "have" : "has"} selected this`
}

/** Who came and who left. */
export function arrivalWords(come, left) {
  const words = []
  if (come.length > 0) words.push(`${peopleWords(come)} ${come.length > 1 ? "are" : "is"} here.`)
  if (left.length > 0) words.push(`${peopleWords(left)} ${left.length > 1 ? "have" : "has"} left.`)
  return words.join(" ")
}

/** The first letters of the first words of a name. */
export const initialsOf = (name) =>
  name.split(" ").slice(0, 2).map((word) => [...word][0]).join("").toUpperCase()

/** Versions by their letters. */
export function versionWords(places) {
  const letters = places.map(letterOf)
  const last = letters.pop()
  return letters.length === 0 ? `version\u00a0${last}` : `versions\u00a0${letters.join(", ")} and\u00a0${last}`
}

/**
 * The description of a version, line by line: label, text of the value, and keys.
 * @param {Map<string, unknown>} attributes
 * @param {Iterable<string>} keys all keys that some version of the object has
 * @returns {{ word: string, words: string, keys: string[] }[]}
 */
export function linesOf(attributes, keys) {
  const all = new Set(keys)
  const lineOf = ([word, own, between]) =>
    ({ word, keys: own, words: own.map((key) => valueWords(key, attributes.get(key))).join(between) })
  const told = LINES.filter(([, own]) => own.some((key) => all.has(key)))
  const text = { word: "text", keys: TEXT_KEYS, words: shortened(textIn(attributes), LONGEST_OF_VERSION) || "none" }
  const others = [...all].filter((key) => !TOLD.includes(key)).map((key) => [key, [key], ""])
  return [...told.map(lineOf), text, ...others.map(lineOf)]
}

function valueWords(key, value) {
  if (value === undefined || value === "") return "none"
  // Those of a line may be negative.
  if ((key === "width" || key === "height") && typeof value === "number") return String(Math.abs(value))
  if (key === "group") return "in a group"
  if (key === "arrow") return ARROW_WORDS.get(value) ?? String(value)
  return ((key === "fill" || key === "outline") && COLOURS.get(value)) || String(value)
}

/**
 * The keys that some version has. The names of those who made it are none of its attributes.
 * @param {{ attributes: Map<string, unknown> }[]} versions
 */
export const keysOf = (versions) =>
  new Set(versions.flatMap(({ attributes }) => withoutMakers(attributes).map(([key]) => key)))

/**
 * The keys whose values differ between versions.
 * @param {{ attributes: Map<string, unknown> }[]} versions
 */
export function differingKeys(versions) {
  const [first] = versions
  const isOther = (key) => versions.some((one) => one.attributes.get(key) !== first.attributes.get(key))
  return new Set([...keysOf(versions)].filter(isOther))
}
