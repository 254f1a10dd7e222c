/** Styles: outlines, widths of lines, and shapes without a fill. */

import { join } from "node:path"
import { expectEqual } from "../../../clients/js/tests/checks.js"
import { CONTROL } from "./chromium.mjs"
import { HEADING, PICTURES, added, draw, onScreen, step, twoPeople } from "./people.mjs"

export const styles = (browser) => twoPeople(browser, async ({ first, second, room }) => {
  await step("outline and width", () => outlines(first, second, room))
  await step("a shape without a fill", () => noFill(first, second, room))
  await step("the style of several", () => several(first, second, room))
  await step("the style of the next objects", () => next(first, second, room))
})

/** The stroke, its width and the fill of a body, as they are drawn. */
const styleOf = (name) => `(() => {
  const { stroke, strokeWidth, fill } = getComputedStyle(document.querySelector('.version[aria-label="${name}"] .body'))
  return [stroke, strokeWidth, fill]
})()`
const [RED, BLUE] = ["rgb(228, 87, 46)", "rgb(58, 134, 200)"]
const EDGE = "rgba(0, 0, 0, 0.45)"

async function outlines(first, second, room) {
  await draw(first, "rect", [100, 100], [300, 220])
  const choose = (focus) => added(room, 1, () => first.click(`[data-focus="${focus}"]`))
  expectEqual("an outline", await choose("outline-#e4572e"), [["put", [["outline", "#e4572e"]]]])
  expectEqual("a width", await choose("thickness-thick"), [["put", [["thickness", "thick"]]]])
  const is = (values) => `String(${styleOf("Rectangle")}) === ${JSON.stringify(String(values))}`
  await second.waitUntil("what the other sees", is([RED, "4px", BLUE]))
  expectEqual("one step back", await added(room, 1, () => first.key("z", CONTROL)), [["put", [["thickness", ""]]]])
  await second.waitUntil("the usual width", is([RED, "2px", BLUE]))
  expectEqual("the usual outline", await choose("outline-"), [["put", [["outline", ""]]]])
  await second.waitUntil("the usual outline", is([EDGE, "2px", BLUE]))
}

async function clickAt(page, place) {
  const at = await onScreen(page, place)
  await page.press(at)
  await page.release(at)
}

async function noFill(first, second, room) {
  expectEqual("none", await added(room, 1, () => first.click('[data-focus="no-fill"]')), [["put", [["fill", "none"]]]])
  await second.waitUntil("no fill", `${styleOf("Rectangle")}[2] === "none"`)
  await first.picture(join(PICTURES, "no-fill.png"))
  await clickAt(first, [200, 160])
  expectEqual("a click inside", await first.look(HEADING), "Objects (1)")
  await clickAt(first, [100, 160])
  expectEqual("a click on the edge", await first.look(HEADING), "Rectangle")
  expectEqual("a fill again", await added(room, 1, () => first.click('[data-colour="#3a86c8"]')),
    [["put", [["fill", "#3a86c8"]]]])
}

async function several(first, second, room) {
  await first.click('[data-focus="thickness-medium"]')
  await draw(first, "ellipse", [400, 100], [500, 200])
  await draw(first, "line", [100, 300], [300, 300])
  await first.key("a", CONTROL)
  expectEqual("the width of all", await added(room, 3, () => first.click('[data-focus="thickness-thin"]')),
    Array(3).fill(["put", [["thickness", "thin"]]]))
  for (const [name, width] of [["Rectangle", "1px"], ["Ellipse", "1px"], ["Line", "2px"]]) {
    await second.waitUntil(`the width of ${name}`, `${styleOf(name)}[1] === "${width}"`)
  }
  expectEqual("one step back", (await added(room, 3, () => first.key("z", CONTROL))).length, 3)
  await second.waitUntil("as before", `${styleOf("Line")}[1] === "4px"`)
}

/** What one chooses for the next object, or for one that is selected, holds for those after it. */
async function next(first, second, room) {
  await first.key("Escape")
  await first.key("r")
  expectEqual("the panel", await first.look(HEADING), "Next rectangle")
  for (const word of ["no-fill", "outline-#e4572e", "thickness-thick"]) await first.click(`[data-focus="${word}"]`)
  await first.picture(join(PICTURES, "next-shape.png"))
  const drawn = async (act) => new Map((await added(room, 1, act))[0][1])
  const styleIn = (pairs) => ["fill", "outline", "thickness", "arrow", "size"].map((key) => pairs.get(key))
  const drag = (from, to) => async () => first.drag(await onScreen(first, from), await onScreen(first, to))
  const outlined = ["none", "#e4572e", "thick", undefined, undefined]
  expectEqual("chosen before", styleIn(await drawn(drag([600, 100], [700, 200]))), outlined)
  await first.key("o")
  await first.press(await onScreen(first, [800, 100]))
  await first.moveTo(await onScreen(first, [900, 200]))
  const live = `document.querySelector(".live .body")?.getAttribute("fill")`
  await second.waitUntil("it has no fill while it is drawn", `${live} === "none"`)
  const release = async () => first.release(await onScreen(first, [900, 200]))
  expectEqual("the next shape", styleIn(await drawn(release)), outlined)
  const fill = () => first.click('[data-focus="filled"]')
  expectEqual("filled", await added(room, 1, fill), [["put", [["fill", "#3a86c8"]]]])
  await first.key("l")
  expectEqual("a line, which has its own width", styleIn(await drawn(drag([600, 300], [700, 300]))),
    ["#3a86c8", undefined, "thin", undefined, undefined])
  await first.key("a")
  await first.click('[data-focus="arrow-both"]')
  await first.click('[data-focus="thickness-medium"]')
  for (const y of [340, 380]) {
    await first.key("a")
    expectEqual("an arrow", styleIn(await drawn(drag([600, y], [700, y]))),
      ["#3a86c8", undefined, undefined, "both", undefined])
  }
  await first.key("t")
  await first.click('[data-focus="size-large"]')
  const text = async () => {
    await first.drag(await onScreen(first, [600, 450]), await onScreen(first, [600, 450]))
    await first.write("Quay")
    await first.key("Escape")
  }
  expectEqual("a text", styleIn(await drawn(text)), ["#3a86c8", undefined, undefined, undefined, "large"])
  await fillAgain(first, room, drawn, drag)
}

/** A colour that is chosen for a shape fills the next ones. One for a line does not. */
async function fillAgain(first, room, drawn, drag) {
  await first.key("r")
  await first.click('[data-focus="no-fill"]')
  await first.key("l")
  await first.click('[data-colour="#4c9f70"]')
  await first.key("r")
  expectEqual("after a colour for a line", (await drawn(drag([600, 500], [650, 540]))).get("fill"), "none")
  await added(room, 1, () => first.click('[data-colour="#f2b134"]'))
  await first.key("r")
  expectEqual("after a colour for a shape", (await drawn(drag([700, 500], [750, 540]))).get("fill"), "#f2b134")
}
