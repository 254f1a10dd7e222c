/** The versions of an object side by side: as cards, or as rows if there are many. */

import { bodyOf, outlineOf, textOf } from "./bodies.js"
import { boundsOfAll } from "./boxes.js"
import { button, html, svg } from "./elements.js"
import { isColour } from "./shapes.js"
import { differingKeys, keepWords, keysOf, letterOf, linesOf } from "./words.js"

// More versions than these are shown as rows.
const CARDS = 6
const SEEN_FIRST = "Who made this version, and when this page first saw it"

/**
 * What one can do with versions.
 * @typedef {{ versions: any[], shapes: any[], picked: any, makerOf: (version: any) => string,
 *   pick: (version: any) => void, keep: (version: any) => void, point: (version: any) => void }} Choice the versions
 *   and their shapes, the picked one or null, the words that say who made one, and what is called when the user picks
 *   one, keeps one alone, or points at one, or at none
 */

/** @param {Choice} choice */
export function cardsOf(choice) {
  const { versions, picked, point } = choice
  const isMany = versions.length > CARDS
  const cards = versions.map((version, place) => {
    const card = (isMany ? rowOf : wholeCardOf)(choice, place, buttonsOf(choice, version, isMany))
    if (version === picked) card.classList.add("picked")
    card.setAttribute("aria-label", `Version ${letterOf(place)}`)
    card.addEventListener("pointerenter", () => point(version))
    card.addEventListener("pointerleave", () => point(null))
    return card
  })
  return html("div", { className: isMany ? "rows" : "cards" }, ...cards)
}

/** The buttons that pick a version, or keep it alone. A key that is held down presses none of another version. */
function buttonsOf({ versions, picked, pick, keep }, version, isMany) {
  const letter = letterOf(versions.indexOf(version))
  const isPicked = version === picked
  const words = isMany ? (isPicked ? "Picked" : "Pick") : `${isPicked ? "Working" : "Work"} on ${letter}`
  const choose = button(words, `pick-${letter}`, () => pick(version))
  choose.setAttribute("aria-pressed", isPicked)
  choose.setAttribute("aria-label", `Work on version ${letter}`)
  const only = button("Keep only this", `keep-${letter}`, () => keep(version))
  Object.assign(only, { className: "keep-only", title: keepWords(letter, versions.length - 1) })
  return html("div", { className: "actions" }, choose, only)
}

const makerLine = ({ makerOf, versions }, place) =>
  html("p", { className: "maker", title: SEEN_FIRST, textContent: makerOf(versions[place]) })

function wholeCardOf(choice, place, buttons) {
  const { versions, shapes } = choice
  const { attributes } = versions[place]
  const differing = differingKeys(versions)
  const lines = linesOf(attributes, keysOf(versions)).flatMap((line) =>
    [html("dt", { textContent: line.word }), html("dd", {}, valueOf(line, isDiffering(line, differing), attributes))])
  return html("section", { className: "card" },
    html("strong", { textContent: `Version ${letterOf(place)}` }), makerLine(choice, place), pictureOf(shapes, place),
    html("dl", {}, ...lines), buttons)
}

/** A row shows only the attributes that differ between versions. */
function rowOf(choice, place, buttons) {
  const { versions, shapes } = choice
  const { attributes } = versions[place]
  const differing = differingKeys(versions)
  const lines = linesOf(attributes, keysOf(versions)).filter((line) => isDiffering(line, differing))
  const values = lines.map((line) => valueOf(line, true, attributes))
  return html("section", { className: "card row" },
    html("strong", { textContent: letterOf(place) }), pictureOf([shapes[place]], 0),
    html("div", { className: "values" }, ...values, makerLine(choice, place)), buttons)
}

const isDiffering = ({ keys }, differing) => keys.some((key) => differing.has(key))

/** The text of a value. Values that differ between versions are highlighted. */
function valueOf({ word, words, keys }, isMarked, attributes) {
  const shown = html(isMarked ? "mark" : "span", { title: word })
  const fill = keys.includes("fill") ? attributes.get("fill") : undefined
  if (isColour(fill)) {
    const dot = html("span", { className: "dot" })
    dot.style.background = fill
    shown.append(dot)
  }
  shown.append(words)
  return shown
}

/**
 * A shape with the outlines of the others, all in one scale.
 * @param {any[]} shapes
 * @param {number} place
 */
export function pictureOf(shapes, place) {
  const { x, y, width, height } = boundsOfAll(shapes)
  const edge = 0.08 * Math.max(width, height) + 8
  const viewBox = [x - edge, y - edge, width + 2 * edge, height + 2 * edge].join(" ")
  const picture = svg("svg", { viewBox, "aria-hidden": "true" })
  shapes.forEach((shape, other) => {
    if (other !== place) picture.append(outlineOf(shape, "other"))
  })
  picture.append(bodyOf(shapes[place]), ...(shapes[place].kind === "text" ? [textOf(shapes[place])] : []))
  return picture
}
