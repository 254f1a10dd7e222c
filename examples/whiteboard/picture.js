/**
 * The drawing as a picture that stands alone: an SVG element that needs no style sheet, and a PNG. It shows what the
 * page shows without its marks. Of an object with several versions it has the picked one, or all if none is picked.
 */

import { EDGE_STYLE, FONT_STYLE, LINE_STYLE, PAPER_COLOUR, textOf } from "./bodies.js"
import { keyOf } from "./board.js"
import { html, svg } from "./elements.js"
import { bodiesOf, stripeOf } from "./sheet.js"
import { letterOf } from "./words.js"

// Around what is drawn, in units of the drawing.
const MARGIN = 16
// A picture has so many pixels for a unit, unless it would be larger than browsers draw.
const PIXELS = 2
const MOST_SIDE = 8192
const MOST_AREA = 2 ** 24

/** @param {import("./board.js").Board} board @returns {SVGSVGElement} */
export function pictureOf(board) {
  const layer = svg("g", {}, ...sorted(board).flatMap((object) => elementsOf(board, object)))
  const { x, y, width, height } = sizeOf(layer)
  const paper = svg("rect", { x, y, width, height, fill: PAPER_COLOUR })
  const viewBox = [x, y, width, height].join(" ")
  const picture = svg("svg", { xmlns: "http://www.w3.org/2000/svg", viewBox, width, height }, paper, layer)
  for (const element of picture.querySelectorAll("[class]")) dress(element)
  return picture
}

/** The text of a picture. */
export const svgText = (picture) => `${new XMLSerializer().serializeToString(picture)}\n`

/** @param {SVGSVGElement} picture @returns {Promise<Blob>} @throws {Error} the browser cannot draw it */
export async function pngOf(picture) {
  const [width, height] = ["width", "height"].map((side) => Number(picture.getAttribute(side)))
  const scale = Math.min(PIXELS, MOST_SIDE / Math.max(width, height), Math.sqrt(MOST_AREA / (width * height)))
  const canvas = html("canvas", { width: Math.ceil(width * scale), height: Math.ceil(height * scale) })
  const image = new Image()
  image.src = URL.createObjectURL(new Blob([svgText(picture)], { type: "image/svg+xml" }))
  try {
    await image.decode()
    canvas.getContext("2d").drawImage(image, 0, 0, canvas.width, canvas.height)
  } finally {
    URL.revokeObjectURL(image.src)
  }
  const blob = await new Promise((tell) => canvas.toBlob(tell, "image/png"))
  if (blob === null) throw new Error("the browser drew no picture")
  return blob
}

/** The versions to draw, from back to front. */
function sorted(board) {
  const all = board.drawn().flatMap(({ name, shapes }) => {
    const picked = board.shown(name).indexOf(board.picked(name))
    const places = picked < 0 ? [...shapes.keys()] : [picked]
    return places.map((place) => ({ name, place, isAlone: picked >= 0, z: shapes[place].z }))
  })
  return all.sort((one, other) => one.z - other.z)
}

function elementsOf(board, { name, place, isAlone }) {
  const shapes = board.shapes(name)
  const stripe = isAlone ? null : stripeOf(shapes, place)
  const bodies = bodiesOf(shapes[place], stripe, `picture-${keyOf(name)}-${letterOf(place)}`)
  const all = shapes[place].text === "" ? bodies : [...bodies, textOf({ ...shapes[place], ...stripe })]
  return all.filter((element) => !element.matches(".unseen-body"))
}

/** The box of what a layer draws. It has to be in the page for that. */
function sizeOf(layer) {
  const frame = html("div", { className: "unseen" }, svg("svg", {}, layer))
  document.body.append(frame)
  const { x, y, width, height } = layer.getBBox()
  frame.remove()
  return { x: x - MARGIN, y: y - MARGIN, width: width + 2 * MARGIN, height: height + 2 * MARGIN }
}

/** Gives an element as attributes what the style sheet gives it on the page. */
function dress(element) {
  const usual = element.matches("text") ? FONT_STYLE : element.matches(".stroke") ? LINE_STYLE : EDGE_STYLE
  const own = element.style.stroke === "" || element.matches("text") ? usual : { ...usual, "stroke-opacity": 1 }
  for (const [key, value] of Object.entries(own)) element.setAttribute(key, value)
  element.removeAttribute("class")
}
