/** A page of another kind that shows a room: it follows what is drawn, and draws nothing itself. */

import { readFile } from "node:fs/promises"
import { join } from "node:path"
import { expect, expectEqual } from "../../../clients/js/tests/checks.js"
import { COUNT, PICTURES, allDrag, draw, faults, waitForNews } from "./people.mjs"
import { inOwnRooms } from "./rooms.mjs"

const SCRIPT = /<script type="module">\n([^]*)<\/script>/
const MOST_LINES = 30
// Of each element of the drawing: what it is, its box, and how opaque it is.
const SHOWN = `[...document.querySelectorAll("svg *")].map((one) => {
  const { x, y, width, height } = one.getBBox()
  return [one.localName, x, y, width, height, one.getAttribute("opacity")]
})`
const isShown = (page, what, expected) =>
  page.waitUntil(what, `JSON.stringify(${SHOWN}) === ${JSON.stringify(JSON.stringify(expected))}`)

export const embedding = (browser) => inOwnRooms(browser, { "a room in another page": inAnotherPage })

async function inAnotherPage(room) {
  const page = await room.open()
  const client = await room.watch()
  await draw(page, "rect", [100, 100], [220, 180])
  const link = new URL(room.link)
  link.pathname = "/examples/embed/"
  const [, script] = SCRIPT.exec(await readFile(new URL("../../embed/index.html", import.meta.url), "utf8"))
  const lines = script.trim().split("\n").length
  expect(`the lines of its script: ${lines}`, lines <= MOST_LINES)
  const shown = await room.browser.open(link.href, 800, 700)
  try {
    await isShown(shown, "the rectangle", [["rect", 100, 100, 120, 80, "1"]])
    await draw(page, "ellipse", [400, 300], [520, 380])
    await isShown(shown, "an ellipse that is drawn",
      [["rect", 100, 100, 120, 80, "1"], ["ellipse", 400, 300, 120, 80, "1"]])
    await twoVersions(room, page, shown)
    await shown.picture(join(PICTURES, "embedded.png"))
    // The pages of the whiteboard joined first and last, the page that only shows the room before the last.
    const authors = client.record.filter(([word]) => word !== "join").map(([, [site]]) => site)
    expectEqual("who has changed it", [...new Set(authors)].sort(), [1, 4])
    faults(shown)
  } finally {
    await shown.close()
  }
}

async function twoVersions(room, page, shown) {
  const other = await room.open()
  await other.waitUntil("both", `${COUNT} === 2`)
  await waitForNews()
  await page.key("Escape")
  await allDrag([page, other], '.version[aria-label="Rectangle"]', [[200, 0], [0, 200]])
  const pale = `(${SHOWN}).filter((one) => one.at(-1) === "0.4").length`
  await shown.waitUntil("two pale versions", `${pale} === 2`)
}
