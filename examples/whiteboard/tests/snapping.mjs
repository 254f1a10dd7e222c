/** Shapes snap to others while somebody moves, resizes or draws them, with guides. Alt suspends it. */

import { join } from "node:path"
import { expectEqual } from "../../../clients/js/tests/checks.js"
import { ALT, SHIFT } from "./chromium.mjs"
import { COUNT, PICTURES, added, draw, onScreen } from "./people.mjs"
import { inOwnRooms } from "./rooms.mjs"

export const snapping = (browser) => inOwnRooms(browser, {
  "a shape that is moved snaps": moved,
  "a shape snaps while it is resized": resized,
  "each corner resizes": corners,
  "a new shape snaps": drawn,
  "strokes and lines hold nothing": thin,
})

// The guides, in whole units of the drawing: x1, y1, x2, y2.
const GUIDES = `[...document.querySelectorAll(".guide")].map((line) => {
  const inverse = document.getElementById("shapes").getCTM().inverse()
  return [["x1", "y1"], ["x2", "y2"]].flatMap((names) => {
    const [x, y] = names.map((name) => Number(line.getAttribute(name)))
    const { x: left, y: top } = new DOMPoint(x, y).matrixTransform(inverse)
    return [left, top].map(Math.round)
  })
})`

/** A rectangle, and a page in the scale 1, in which six pixels are six units. */
async function begin(room) {
  const page = await room.open()
  const client = await room.watch()
  await page.key("1")
  const made = client.create("rect", { x: 400, y: 200, width: 100, height: 100 })
  await made.done
  await page.waitUntil("the rectangle", `${COUNT} === 1`)
  return { page, client }
}

/** Drags, and returns the guides before the release and what the drag put. */
async function dragging(page, client, from, to) {
  const [start, end] = [await onScreen(page, from), await onScreen(page, to)]
  let guides
  const entries = await added(client, 1, async () => {
    await page.press(start)
    await page.moveTo(end)
    await page.frame()
    guides = await page.look(GUIDES)
    if (guides.length > 0) await page.picture(join(PICTURES, "guides.png"))
    await page.release(end)
  })
  expectEqual("the guides at the end", await page.look(GUIDES), [])
  return [guides, entries.map(([word, pairs]) => [word, Object.fromEntries(pairs)])]
}

async function moved(room) {
  const { page, client } = await begin(room)
  await client.create("ellipse", { x: 600, y: 450, width: 60, height: 40 }).done
  await page.waitUntil("the ellipse", `${COUNT} === 2`)
  const [guides, put] = await dragging(page, client, [630, 470], [455, 472])
  // Its middle was 5 units beside that of the rectangle at x = 450. No line across is near.
  expectEqual("the middle", put, [["put", { x: 420, y: 452 }]])
  expectEqual("the guide", guides, [[450, 200, 450, 492]])
  const [both, edges] = await dragging(page, client, [450, 472], [535, 284])
  // The left edge is at x = 500 and the lower one at y = 300 then.
  expectEqual("two edges", edges, [["put", { x: 500, y: 260 }]])
  expectEqual("their guides", both, [[500, 200, 500, 300], [400, 300, 560, 300]])
  const [none, far] = await dragging(page, client, [530, 280], [538, 287])
  expectEqual("more than six pixels away", [none, far], [[], [["put", { x: 508, y: 267 }]]])
  await page.withKeys(ALT, async () => {
    const [alone, free] = await dragging(page, client, [538, 287], [533, 282])
    expectEqual("with Alt", [alone, free], [[], [["put", { x: 503, y: 262 }]]])
  })
}

async function resized(room) {
  const { page, client } = await begin(room)
  await client.create("rect", { x: 600, y: 150, width: 80, height: 80 }).done
  await page.waitUntil("both", `${COUNT} === 2`)
  const at = await onScreen(page, [640, 190])
  await page.press(at)
  await page.release(at)
  const [guides, put] = await dragging(page, client, [680, 230], [704, 303])
  expectEqual("its lower edge", put, [["put", { width: 104, height: 150 }]])
  expectEqual("the guide", guides, [[400, 300, 704, 300]])
  await page.withKeys(SHIFT, async () => {
    const [none, regular] = await dragging(page, client, [704, 300], [704, 303])
    expectEqual("a regular size", [none, regular], [[], [["put", { width: 153, height: 153 }]]])
  })
}

async function drawn(room) {
  const { page, client } = await begin(room)
  await page.click(`[data-tool="ellipse"]`)
  const [guides, made] = await dragging(page, client, [503, 296], [640, 254])
  const { x, y, width, height } = made[0][1]
  expectEqual("both corners", [x, y, width, height], [500, 250, 140, 50])
  // The corner at the pointer is at the height of the rectangle's middle.
  expectEqual("the guide", guides, [[400, 250, 640, 250]])
  await page.key("Escape")
  await page.withKeys(ALT, async () => {
    const entries = await added(client, 1, () => draw(page, "rect", [503, 396], [640, 454]))
    const free = Object.fromEntries(entries[0][1])
    expectEqual("with Alt", [free.x, free.y, free.width, free.height], [503, 396, 137, 58])
  })
}

/** Each corner of a shape resizes it. The opposite corner stays. */
async function corners(room) {
  const { page, client } = await begin(room)
  const at = await onScreen(page, [450, 250])
  await page.press(at)
  await page.release(at)
  const [, topLeft] = await dragging(page, client, [400, 200], [350, 180])
  expectEqual("the first corner", topLeft, [["put", { x: 350, y: 180, width: 150, height: 120 }]])
  const [, topRight] = await dragging(page, client, [500, 180], [540, 210])
  expectEqual("the second one", topRight, [["put", { x: 350, y: 210, width: 190, height: 90 }]])
  await page.withKeys(SHIFT, async () => {
    const [, bottomLeft] = await dragging(page, client, [350, 300], [400, 310])
    expectEqual("the third one, regular", bottomLeft, [["put", { x: 400, y: 210, width: 140, height: 140 }]])
  })
  await page.picture(join(PICTURES, "handles.png"))
}

/** A page with handwriting would hold a shape everywhere. */
async function thin(room) {
  const { page, client } = await begin(room)
  await client.create("line", { x: 600, y: 50, width: 100, height: 0 }).done
  await client.create("pen", { x: 600, y: 400, width: 50, height: 0, "points-0": "0,0 50,0" }).done
  await page.waitUntil("all", `${COUNT} === 3`)
  const [guides, put] = await dragging(page, client, [450, 250], [553, 453])
  expectEqual("it is where it was dragged", [guides, put], [[], [["put", { x: 503, y: 403 }]]])
}
