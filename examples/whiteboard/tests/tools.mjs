/** The tools: keys that take them, shapes by a click, and regular shapes. */

import { expectEqual } from "../../../clients/js/tests/checks.js"
import { CONTROL, SHIFT } from "./chromium.mjs"
import { added, draw, onScreen, step, stroke, twoPeople } from "./people.mjs"

const TOOL = `document.querySelector('[data-tool][aria-pressed="true"]').dataset.tool`

export const tools = (browser) => twoPeople(browser, async ({ first, room }) => {
  await step("keys take tools", () => keys(first, room))
  await step("a click draws a shape", () => clicks(first, room))
  await step("regular shapes", () => regular(first, room))
  await step("undo leaves the tool", () => undone(first, room))
  await step("keys apply to what was drawn last", () => newest(first, room))
})

async function keys(first, room) {
  for (const [key, tool] of [["r", "rect"], ["o", "ellipse"], ["l", "line"], ["p", "pen"], ["v", "select"]]) {
    await first.key(key)
    expectEqual(`the tool of ${key}`, await first.look(TOOL), tool)
  }
  const titles = `[...document.querySelectorAll("button[data-tool]")].slice(0, 3).map((one) => one.title)`
  expectEqual("the tooltips", await first.look(titles), ["Select (V)", "Rectangle (R)", "Ellipse (O)"])
  await first.key("R")
  const drag = async () => first.drag(await onScreen(first, [100, 100]), await onScreen(first, [200, 160]))
  expectEqual("what is drawn", (await added(room, 1, drag)).map(([word]) => word), ["new"])
  await first.click("#panel label textarea")
  await first.key("o")
  expectEqual("a letter in a text field", await first.look(TOOL), "select")
  await first.key("Escape")
}

/** The box of a new object. */
const boxOf = ([[, pairs]]) => ["x", "y", "width", "height"].map((key) => new Map(pairs).get(key))

async function clickWith(page, tool, place) {
  await page.click(`[data-tool="${tool}"]`)
  const at = await onScreen(page, place)
  await page.press(at)
  await page.release(at)
}

async function clicks(first, room) {
  const click = (tool, place) => added(room, 1, () => clickWith(first, tool, place))
  expectEqual("a rectangle", boxOf(await click("rect", [500, 200])), [410, 140, 180, 120])
  expectEqual("an ellipse", boxOf(await click("ellipse", [800, 200])), [720, 140, 160, 120])
  expectEqual("a line", boxOf(await click("line", [500, 400])), [410, 355, 180, 90])
  expectEqual("the tool then", await first.look(TOOL), "select")
}

async function regular(first, room) {
  const drawn = async (tool, from, to) => boxOf(await added(room, 1, async () => {
    await first.click(`[data-tool="${tool}"]`)
    const [start, end] = [await onScreen(first, from), await onScreen(first, to)]
    await first.withKeys(SHIFT, () => first.drag(start, end))
  }))
  expectEqual("a square", await drawn("rect", [100, 500], [200, 550]), [100, 500, 100, 100])
  expectEqual("a circle, up to the left", await drawn("ellipse", [400, 600], [350, 500]), [300, 500, 100, 100])
  expectEqual("a level line", await drawn("line", [500, 500], [700, 520]), [500, 500, 200, 0])
  expectEqual("a line at 45 degrees", await drawn("line", [500, 560], [600, 640]), [500, 560, 90, 90])
  await draw(first, "rect", [800, 500], [860, 540])
  const corner = [await onScreen(first, [860, 540]), await onScreen(first, [900, 545])]
  expectEqual("another size", await added(room, 1, () => first.withKeys(SHIFT, () => first.drag(...corner))),
    [["put", [["width", 100], ["height", 100]]]])
}

/** Who takes a stroke back goes on with the pen. */
async function undone(first, room) {
  await added(room, 2, async () => {
    await stroke(first, [[900, 100], [930, 130]])
    await stroke(first, [[900, 130], [930, 100]])
  })
  expectEqual("one stroke back", (await added(room, 1, () => first.key("z", CONTROL))).map(([word]) => word), ["put"])
  expectEqual("the tool", await first.look(TOOL), "pen")
}

/** Also where a shape that one wrote on before has the focus, and behind a click on a button. */
async function newest(first, room) {
  await first.key("Escape")
  await draw(first, "rect", [100, 650], [180, 710])
  await first.key("F2")
  await first.write("Old")
  await first.key("Escape")
  await draw(first, "rect", [300, 650], [380, 710])
  const name = room.objects().at(-1)
  await first.click('[data-focus="thickness-thick"]')
  await first.key("F2")
  await first.write("New")
  await first.key("Escape")
  await first.key("Enter")
  await first.write("Newer")
  expectEqual("Enter writes on it", await added(room, 1, () => first.key("Escape")), [["put", [["name", "Newer"]]]])
  await added(room, 1, () => first.key("d", CONTROL))
  await added(room, 1, () => first.key("ArrowRight"))
  expectEqual("an arrow key moves the copy", room.versions(room.objects().at(-1))[0].attributes.get("x"), 330)
  expectEqual("and not the first", room.versions(name)[0].attributes.get("x"), 300)
  await draw(first, "ellipse", [500, 650], [580, 710])
  const object = room.objects().at(-1)
  await added(room, 1, () => first.key("Delete"))
  expectEqual("Delete takes the newest", room.versions(object)[0].isGone, true)
  const place = await onScreen(first, [340, 660])
  await first.press(place)
  await first.release(place)
  await first.key("Escape")
  expectEqual("after Escape it takes nothing", await added(room, 0, () => first.key("Delete")), [])
}
