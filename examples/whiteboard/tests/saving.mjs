/** What the page shows of changes that the server has not answered. */

import { join } from "node:path"
import { expect, expectEqual } from "../../../clients/js/tests/checks.js"
import { COUNT, PICTURES, STATE, added, draw, onScreen, signalRoom, step, twoPeople } from "./people.mjs"

export const saving = (browser) => twoPeople(browser, async ({ first, second, room, server }) => {
  await step("a drag is one change, sent when it ends", () => oneChange(first, second, room))
  await step("a change that waits is shown", () => waits(first, second, server))
})

async function oneChange(first, second, room) {
  await draw(first, "rect", [200, 200], [400, 320])
  await second.waitUntil("the rectangle", `${COUNT} === 1`)
  const places = []
  for (let place = 0; place <= 30; place++) places.push(await onScreen(first, [300 + 10 * place, 260 + 5 * place]))
  const drag = async () => {
    await first.press(places[0])
    for (const place of places) await first.mouse("mouseMoved", place)
    const start = room.record.length
    await new Promise((resolve) => setTimeout(resolve, 500))
    expectEqual("what is sent before the end", room.record.length, start)
    await first.release(places.at(-1))
  }
  expectEqual("a drag through 31 places", await added(room, 1, drag), [["put", [["x", 500], ["y", 350]]]])
  const back = async () => {
    await first.dragAlong([places.at(-1), places[0], places.at(-1)])
  }
  expectEqual("a drag back to where it began", await added(room, 0, back), [])
  expectEqual("what waits then", await first.look(`document.querySelectorAll(".waiting").length`), 0)
}

/** The server is stopped. The page marks the change on the object, with its waiting time, until the reply. */
async function waits(first, second, server) {
  const since = (seconds) => `/Saving 1 change for ${seconds} s/.test(${STATE})`
  await signalRoom(server, "SIGSTOP")
  try {
    await first.drag(await onScreen(first, [600, 410]), await onScreen(first, [400, 410]))
    await first.waitUntil("the mark", `document.querySelectorAll(".waiting").length === 1`)
    await first.waitUntil("the state", `document.getElementById("state").dataset.state === "saving"`)
    const words = await first.look(STATE)
    expect(`the words: ${words}`, words.startsWith("Your last changes are not saved yet."))
    await first.waitUntil("how long it waits", since(2))
    await first.waitUntil("why that may be", `${STATE}.includes("All its places may be taken")`)
    await first.waitUntil("how long it waits then", since("[3-9]"))
    await first.picture(join(PICTURES, "saving.png"))
    expectEqual("what the other has", await second.look(`document.querySelectorAll(".waiting").length`), 0)
  } finally {
    await signalRoom(server, "SIGCONT")
  }
  await first.waitUntil("the answer", `document.getElementById("state").dataset.state === "open"`)
  await first.waitUntil("no mark any more", `document.querySelectorAll(".waiting").length === 0`)
  await second.waitUntil("the move", `document.querySelector(".version .body").getBBox().x === 300`)
}
