/** What the page showed before the room became another one: a notice keeps it, to be saved until the user closes it. */

import { Drawing, operationOf, readText } from "../../clients/js/grace.js"
import { Board } from "./board.js"
import { objectsOf, textOf } from "./drawing_file.js"
import { button, html, part } from "./elements.js"
import { DRAWING_TYPE, SVG_TYPE } from "./files.js"
import { pictureOf, svgText } from "./picture.js"

const ENTRIES_TYPE = "text/plain"

/**
 * Says that the room was reset, or that the drawing went on without the user's last changes. Offers the old drawing.
 * @param {string} roomName
 * @param {{ words: string, text: string }} news of the room: `text` has the old entries, one a line
 */
export function showOldDrawing(roomName, { words, text }) {
  const links = [...drawingLinks(roomName, text),
    linkOf("Save its entries", `${roomName}.record`, ENTRIES_TYPE, text)]
  const notice = html("section", { className: "notice" }, html("p", { textContent: words }))
  const close = () => {
    notice.remove()
    for (const { href } of links) URL.revokeObjectURL(href)
  }
  notice.append(html("div", { className: "actions" }, ...links, button("Close", "close", close)))
  part("reset").append(notice)
}

/** The old drawing as a file that a whiteboard opens, and as a picture; nothing if it was empty. */
function drawingLinks(roomName, text) {
  const board = boardOf(text, roomName)
  if (board.objects().length === 0) return []
  return [
    linkOf("Save the old drawing", `${roomName}-old.json`, DRAWING_TYPE, textOf(objectsOf(board))),
    linkOf("Save it as SVG", `${roomName}-old.svg`, SVG_TYPE, svgText(pictureOf(board))),
  ]
}

const linkOf = (textContent, download, type, text) =>
  html("a", { href: URL.createObjectURL(new Blob([text], { type })), download, textContent })

/** A board that shows what entries draw. */
function boardOf(text, roomName) {
  const drawing = new Drawing()
  for (const line of text.split("\n")) {
    const operation = line === "" ? null : operationOf(readText(line))
    if (operation !== null) drawing.add(operation)
  }
  const names = drawing.names()
  const board = new Board(Object.assign(drawing, { name: roomName, objects: () => names }))
  board.connections.update(names, true)
  return board
}
