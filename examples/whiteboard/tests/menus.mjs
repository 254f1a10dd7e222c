/** The menu of the right button, and of a finger that rests. */

import { join } from "node:path"
import { expectEqual } from "../../../clients/js/tests/checks.js"
import { COUNT, HEADING, PICTURES, added, draw, onScreen } from "./people.mjs"
import { inOwnRooms } from "./rooms.mjs"

export const menus = (browser) => inOwnRooms(browser, {
  "the menu of the right button": rightButton,
  "the menu of a finger that rests": restingFinger,
})

const IS_OPEN = `document.getElementById("menu").matches(":popover-open")`
const ITEMS = `[...document.querySelectorAll("#menu button:not(:disabled)")].map((one) => one.textContent)`

/** Presses and releases the right button. */
async function rightClick(page, place) {
  const [x, y] = await onScreen(page, place)
  for (const type of ["mousePressed", "mouseReleased"]) {
    await page.ask("Input.dispatchMouseEvent", { type, x, y, button: "right", clickCount: 1 })
  }
  await page.waitUntil("the menu", IS_OPEN)
  await page.frame()
}

const choose = (page, words) => page.click(`#menu [data-focus="menu-${words}"]`)

async function rightButton(room) {
  const page = await room.open()
  const client = await room.watch()
  await draw(page, "rect", [100, 100], [300, 250])
  await draw(page, "ellipse", [250, 200], [400, 300])
  await page.key("Escape")
  await rightClick(page, [150, 150])
  expectEqual("what is selected", await page.look(HEADING), "Rectangle")
  expectEqual("what can be chosen", await page.look(ITEMS), ["Copy", "Duplicate", "To front", "To back", "Delete"])
  await page.picture(join(PICTURES, "context-menu.png"))
  expectEqual("to the front", await added(client, 1, () => choose(page, "To front")), [["put", [["z", 1]]]])
  await rightClick(page, [150, 150])
  await page.key("Escape")
  expectEqual("after Escape", [await page.look(IS_OPEN), await page.look(HEADING)], [false, "Rectangle"])
  await rightClick(page, [380, 280])
  expectEqual("one that is deleted", await added(client, 1, () => choose(page, "Delete")), [["drop"]])
  await rightClick(page, [700, 500])
  expectEqual("on the paper", [await page.look(ITEMS), await page.look(HEADING)], [[], "Objects (1)"])
}

async function restingFinger(room) {
  const page = await room.open()
  await draw(page, "rect", [100, 100], [300, 250])
  await page.key("Escape")
  await page.withTouch(async () => {
    const [x, y] = await onScreen(page, [150, 150])
    await page.ask("Input.dispatchTouchEvent", { type: "touchStart", touchPoints: [{ x, y }] })
    await page.waitUntil("the menu", IS_OPEN)
    await page.ask("Input.dispatchTouchEvent", { type: "touchEnd", touchPoints: [] })
    expectEqual("it stays", [await page.look(IS_OPEN), await page.look(HEADING)], [true, "Rectangle"])
    const item = await page.middleOf(`#menu [data-focus="menu-Delete"]`)
    await page.touch([item], [item])
    await page.waitUntil("it is deleted", `${COUNT} === 0`)
  })
}
