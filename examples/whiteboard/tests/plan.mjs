/** A plan that two people draw. Its picture is in the README. */

import { join } from "node:path"
import { expectEqual } from "../../../clients/js/tests/checks.js"
import { CONTROL } from "./chromium.mjs"
import { BODIES, COUNT, LIST, PICTURES, draw, onScreen, step, twoPeople } from "./people.mjs"

export const plan = (browser) => twoPeople(browser, async ({ first, second }) => {
  await step("two people draw a plan", () => twoDrawPlan(first, second))
})

/** Draws with a tool in a colour, and writes a text on the object. */
async function place(page, tool, colour, [x, y], [right, bottom], words) {
  await page.key("Escape")
  await page.click(`[data-colour="${colour}"]`)
  await draw(page, tool, [x, y], [right, bottom])
  if (words === undefined) return
  await page.doubleClick(await onScreen(page, [(x + right) / 2, (y + bottom) / 2]))
  await page.write(words)
  await page.key("Enter", CONTROL)
}

/** Draws a stroke of the pen through these places. */
async function stroke(page, colour, places) {
  await page.click('[data-tool="pen"]')
  await page.click(`[data-colour="${colour}"]`)
  const onPage = []
  for (const one of places) onPage.push(await onScreen(page, one))
  await page.dragAlong(onPage)
  await page.key("Escape")
}

/** The shore: a wavy stroke of the pen. */
const SHORE = Array.from({ length: 109 }, (_, step) => [60 + 10 * step, 610 + 26 * Math.sin(step / 7) - step / 4])

async function twoDrawPlan(first, second) {
  await stroke(first, "#3a86c8", SHORE)
  await place(first, "rect", "#1d2733", [110, 130], [380, 280], "Harbour office")
  await second.waitUntil("the office", `${COUNT} === 2`)
  await place(second, "ellipse", "#f2b134", [500, 110], [760, 260], "Fish market, every morning from six")
  await place(second, "line", "#1d2733", [380, 205], [500, 185])
  await place(second, "rect", "#4c9f70", [850, 120], [1090, 300], "Park")
  await first.waitUntil("all of it", `${COUNT} === 5`)
  await place(first, "ellipse", "#e4572e", [560, 440], [640, 500])
  await stroke(first, "#8d6cab", [[650, 470], [760, 480], [860, 440], [930, 350], [965, 305]])
  await first.waitUntil("all of the other's", `${COUNT} === 7`)
  await second.waitUntil("all of the first's", `${COUNT} === 7`)
  await first.key("Escape")
  await first.key("Escape")
  expectEqual("what both show", await first.look(BODIES), await second.look(BODIES))
  const shops = ["Rectangle “Harbour office”", "Ellipse “Fish market, every morning from six”"]
  const objects = ["Stroke", ...shops, "Line", "Rectangle “Park”", "Ellipse", "Stroke"]
  expectEqual("the list", await first.look(LIST), objects)
  await first.picture(join(PICTURES, "plan.png"))
}
