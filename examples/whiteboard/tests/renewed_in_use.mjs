/** A kept room that becomes nearly full while two people draw. Both go on in the next one. */

import { readFile } from "node:fs/promises"
import { join } from "node:path"
import { expect, expectEqual } from "../../../clients/js/tests/checks.js"
import { CONTROL } from "./chromium.mjs"
import {
  COUNT, PICTURES, STATE, TOLD, draw, faults, isOpen, linesOf, noteMessages, onScreen, step, stroke, withRecord,
} from "./people.mjs"

// With two pages more, nine tenths of the joins are used.
const JOINS = 229
// Each time both draw something. The server looks at the room after each eight entries.
const MOST_TIMES = 30
const UNDO = ["z", CONTROL]
// In the next room the pages have low sites.
const HAS_GONE_ON = `/^Connected as site \\d\\.$/.test(document.getElementById("state").title)`
// The strokes and the rectangles of a page, in the order of their places.
const DRAWN = `[...document.querySelectorAll(".version .body")].flatMap((body) => {
  if (body.localName === "path") return body.getAttribute("d").split(/ (?=M)/)
  const { x, y, width, height } = body.getBBox()
  return [[x, y, width, height].join(" ")]
}).sort()`
// Who is here, by the colours, and what was told of it.
const COLOURS = `[...document.querySelectorAll("#people .initials")].map((one) => one.style.background).sort()`
const ARRIVALS = `document.getElementById("arrivals").textContent`
const PIER = [20, 20, 60, 50]

export async function renewedInUse(browser) {
  await step("a kept room is renewed while two people draw", () => inKeptRoom(browser, bothDraw))
  await step("a kept room is renewed during a drag", () => inKeptRoom(browser, oneDrags))
}

/** The record of a room that is nearly full once two pages are in it. It has one rectangle. */
function recordOfJoins() {
  const joins = Array.from({ length: JOINS }, (_, place) => ["join", place + 1])
  const [x, y, width, height] = PIER
  const drawn = [["x", x], ["y", y], ["width", width], ["height", height], ["fill", "#4c9f70"], ["name", "Pier"]]
  return linesOf([...joins, ["new", [1, 1], [], "rect", drawn]])
}

/** Runs an action with two pages in this room. Then both are in the next one under the same link, as a third one is. */
const inKeptRoom = (browser, act) => withRecord(recordOfJoins(), async (address, folder) => {
  const pages = []
  const enter = async () => {
    const page = await browser.open(address, 1240, 720)
    pages.push(page)
    await isOpen(page)
    return page
  }
  const [first, second] = [await enter(), await enter()]
  for (const page of pages) await noteMessages(page)
  const link = await first.look("location.href")
  for (const page of pages) await page.waitUntil("both are here", `${COLOURS}.length === 2`)
  const colours = await first.look(COLOURS)
  const drawn = await act(first, second)
  const areHere = `${COLOURS}.join() === ${JSON.stringify(colours.join())}`
  for (const page of pages) await page.waitUntil("both are here again", areHere)
  // It would be told by then.
  await new Promise((resolve) => setTimeout(resolve, 2500))
  for (const page of pages) expect("nobody has left", !(await page.look(ARRIVALS)).includes("left"))
  await expectDrawn([first, second, await enter()], drawn)
  for (const page of pages) expectEqual("the address", await page.look("location.href"), link)
  for (const page of [first, second]) expectEqual("what it tells", await page.look(TOLD), [])
  const [last] = (await readFile(join(folder, "people.record"), "utf8")).trimEnd().split("\n").slice(-1)
  expect(`the end of the old record: ${last}`, /^\["next",\d+\]$/.test(last))
  faults(...pages)
  for (const page of pages) await page.close()
})

/** Each page is in the room and shows exactly this. */
async function expectDrawn(pages, drawn) {
  for (const page of pages) {
    await page.waitUntil("it is connected", `${STATE} === "Connected."`)
    await page.waitUntil("all is shown", `(${DRAWN}).length === ${drawn.length}`)
    expectEqual("what is drawn", await page.look(DRAWN), [...drawn].sort())
  }
}

/**
 * The first person writes and the second one draws rectangles, at the same time, until both have gone on. The first one
 * takes back all that they have drawn, also that of before, and draws it again.
 */
async function bothDraw(first, second) {
  const [strokes, boxes] = [[], [PIER.join(" ")]]
  for (let time = 0; time < MOST_TIMES && !(await haveGoneOn(first, second)); time++) {
    const x = 40 + 30 * time
    await Promise.all([
      stroke(first, [[x, 200], [x + 10, 240], [x + 20, 200]]),
      draw(second, "rect", [x, 400], [x + 20, 440]),
    ])
    strokes.push(`M ${x} 200 L ${x + 10} 240 L ${x + 20} 200`)
    boxes.push(`${x} 400 20 40`)
  }
  expect("both have gone on", await haveGoneOn(first, second))
  await expectDrawn([first, second], [...strokes, ...boxes])
  await first.picture(join(PICTURES, "renewed-in-use.png"))
  for (let time = 0; time < strokes.length; time++) await first.key(...UNDO)
  await expectDrawn([first, second], boxes)
  await second.key(...UNDO)
  await expectDrawn([first, second], boxes.slice(0, -1))
  return boxes.slice(0, -1)
}

const haveGoneOn = async (...pages) => (await Promise.all(pages.map((page) => page.look(HAS_GONE_ON)))).every(Boolean)

/** The second person drags the rectangle meanwhile. That page goes on when the drag ends, and takes the move along. */
async function oneDrags(first, second) {
  const from = await onScreen(second, [50, 45])
  const to = await onScreen(second, [350, 445])
  await second.press(from)
  await second.moveTo(to)
  const boxes = []
  for (let time = 0; time < MOST_TIMES && !(await haveGoneOn(first)); time++) {
    await draw(first, "rect", [40 + 30 * time, 200], [60 + 30 * time, 240])
    boxes.push(`${40 + 30 * time} 200 20 40`)
  }
  expect("the first has gone on", await haveGoneOn(first))
  expectEqual("what the second shows while they drag", await second.look(COUNT), 1)
  await second.release(to)
  await second.waitUntil("the second has gone on", HAS_GONE_ON)
  await second.picture(join(PICTURES, "renewed-during-drag.png"))
  return ["320 420 60 50", ...boxes]
}
