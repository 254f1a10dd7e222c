/** The panel's buttons for attributes of what is selected: the text's size, arrows, fill, outline and line width. */

import { SIDES, WAYS } from "./alignment.js"
import { button, html } from "./elements.js"
import { TEXT_SIZES } from "./lettering.js"
import { ARROW_WORDS, COLOURS, NO_FILL, THICKNESSES, isArea } from "./shapes.js"

const capital = (word) => `${word[0].toUpperCase()}${word.slice(1)}`
const wordsOf = (values) => new Map(Object.keys(values).map((value) => [value, capital(value)]))
const SIZE_WORDS = wordsOf(TEXT_SIZES)
const THICKNESS_WORDS = wordsOf(THICKNESSES)
// As it looks on the paper, also in dark mode.
const USUAL_OUTLINE = "linear-gradient(rgb(0 0 0 / 0.45) 0 0), #fff"
const OUTLINES = new Map([["", "usual"], ...COLOURS])

const isLine = ({ kind }) => kind === "line"

/**
 * The rows of buttons for what these shapes have. Each applies to all of them.
 * @param {any[]} shapes of the picked versions, at least one, or what is drawn next
 * @param {string} colour of a fill
 * @param {(attributes: Record<string, any>) => void} change
 */
export function choicesOf(shapes, colour, change) {
  const [first] = shapes
  const rows = []
  const hasLetters = ({ kind, text }) => kind === "text" || text !== ""
  if (shapes.some(hasLetters)) rows.push(row("Text size", "size", SIZE_WORDS, first.size, change))
  if (shapes.every(isLine)) rows.push(row("Arrows", "arrow", ARROW_WORDS, first.arrow, change))
  if (shapes.some(({ kind }) => kind !== "text")) {
    rows.push(row("Line width", "thickness", THICKNESS_WORDS, first.thickness, change))
  }
  if (shapes.every(isArea)) rows.push(outlineRow(first, change), fillRow(first, colour, change))
  return rows
}

/**
 * The rows of buttons that align what is selected.
 * @param {import("./alignment.js").Alignment} alignment
 */
export function alignmentRows(alignment) {
  const { count } = alignment
  const buttonsOf = (names, act) => names.map((name) => button(capital(name), `align-${name}`, () => act(name)))
  const rows = []
  if (count > 1) rows.push(group("Align", buttonsOf(Object.keys(SIDES), (side) => alignment.align(side))))
  if (count > 2) rows.push(group("Even gaps", buttonsOf(Object.keys(WAYS), (way) => alignment.space(way))))
  return rows
}

function row(label, key, words, chosen, change) {
  const buttons = [...words].map(([value, word]) =>
    choice(button(word, `${key}-${value}`, () => change({ [key]: value })), value === chosen))
  return group(label, buttons)
}

function outlineRow({ outline }, change) {
  const buttons = [...OUTLINES].map(([value, word]) => {
    const one = button("", `outline-${value}`, () => change({ outline: value }))
    Object.assign(one, { className: "colour", title: word })
    one.setAttribute("aria-label", `${word} outline`)
    one.style.background = value || USUAL_OUTLINE
    return choice(one, value === outline)
  })
  return group("Outline", buttons)
}

function fillRow({ fill }, colour, change) {
  const filled = button("Filled", "filled", () => fill === NO_FILL && change({ fill: colour }))
  const none = button("No fill", "no-fill", () => change({ fill: NO_FILL }))
  return group("Fill", [choice(filled, fill !== NO_FILL), choice(none, fill === NO_FILL)])
}

function choice(element, isChosen) {
  element.setAttribute("aria-pressed", isChosen)
  return element
}

function group(label, buttons) {
  const element = html("div", { className: "actions choice", role: "group" },
    html("span", { textContent: label }), ...buttons)
  element.setAttribute("aria-label", label)
  return element
}
