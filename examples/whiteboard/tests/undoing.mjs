/** Undo and redo, and restoring deleted objects. */

import { join } from "node:path"
import { expect, expectEqual, waitUntil } from "../../../clients/js/tests/checks.js"
import { CONTROL, SHIFT } from "./chromium.mjs"
import {
  COUNT, PICTURES, MESSAGES, VERSIONS, added, allDrag, draw, onScreen, signalRoom, step, twoPeople,
} from "./people.mjs"

const UNDO = ["z", CONTROL]
const REDO = ["Z", CONTROL | SHIFT]
const GONE_ON = "This can't be undone: somebody has changed it since."

export const undoing = (browser) => twoPeople(browser, async ({ first, second, room, server }) => {
  await step("steps are undone and done again", () => undoneAndDoneAgain(first, second, room))
  await step("what others have gone on from stays", () => goneOnFrom(first, second, room))
  await step("what was deleted comes back", () => comesBack(first, room))
  await step("two people keep different versions at once", () => bothKeepOnly(first, second, room, server))
})

async function undoneAndDoneAgain(first, second, room) {
  const act = async (what, doIt, wanted) => expectEqual(what, await added(room, 1, doIt), [wanted])
  const made = [["x", 100], ["y", 100], ["width", 100], ["height", 80], ["fill", "#3a86c8"], ["name", ""]]
  // A restored object has its attributes in the order of their keys.
  const again = [["fill", "#3a86c8"], ["height", 80], ["name", ""], ["width", 100], ["x", 100], ["y", 100]]
  await act("a new object", () => draw(first, "rect", [100, 100], [200, 180]), ["new", made])
  const move = async () => first.drag(await onScreen(first, [150, 140]), await onScreen(first, [210, 180]))
  await act("a move", move, ["put", [["x", 160], ["y", 140]]])
  await act("the move undone", () => first.key(...UNDO), ["put", [["x", 100], ["y", 100]]])
  await act("the object undone", () => first.key(...UNDO), ["drop"])
  await second.waitUntil("it is gone", `${COUNT} === 0`)
  expectEqual("what is left to undo", await first.look("document.getElementById('undo').disabled"), true)
  await act("the object again", () => first.key(...REDO), ["new", again])
  await act("the move again", () => first.click("#redo"), ["put", [["x", 160], ["y", 140]]])
  await second.waitUntil("it is there", `${COUNT} === 1`)
  await act("a colour", () => first.click('[data-colour="#e4572e"]'), ["put", [["fill", "#e4572e"]]])
  await act("the colour undone by the button", () => first.click("#undo"), ["put", [["fill", "#3a86c8"]]])
  await act("the colour again by Ctrl+Y", () => first.key("y", CONTROL), ["put", [["fill", "#e4572e"]]])
}

/** A change cannot be undone after another person has changed the object. Earlier changes of other objects can. */
async function goneOnFrom(first, second, room) {
  await draw(first, "ellipse", [400, 100], [500, 180])
  await second.waitUntil("the new object", `${COUNT} === 2`)
  await first.drag(await onScreen(first, [450, 140]), await onScreen(first, [450, 240]))
  await waitUntil("the move", () => room.record.at(-1)[0] === "put")
  await second.click('.version[aria-label="Ellipse"] .body')
  await second.click('[data-colour="#4c9f70"]')
  const green = `document.querySelector('.version[aria-label="Ellipse"] .body').getAttribute("fill") === "#4c9f70"`
  await first.waitUntil("the other's colour", green)
  await waitUntil("it in the record", () => room.record.at(-1).at(-1)[0][0] === "fill")
  expectEqual("what is done", await added(room, 0, () => first.key(...UNDO)), [])
  await first.waitUntil("the messages", `${MESSAGES}.length === 1`)
  expectEqual("what is done of the creation", await added(room, 0, () => first.key(...UNDO)), [])
  expectEqual("the messages then", await first.look(MESSAGES), [GONE_ON])
  await first.picture(join(PICTURES, "gone-on.png"))
  expect("the other's colour stays", await first.look(green))
  expectEqual("what is before it", await added(room, 1, () => first.key(...UNDO)), [["put", [["fill", "#3a86c8"]]]])
  expectEqual("the other's own step", await added(room, 1, () => second.key(...UNDO)), [["put", [["fill", "#e4572e"]]]])
}

/** Undo restores a deleted object, and so does the list of deleted objects. */
async function comesBack(first, room) {
  const shown = async () => (await first.look(VERSIONS)).map(([, , , words]) => words).sort()
  const before = await shown()
  await first.click('.version[aria-label="Ellipse"] .body')
  expectEqual("a deletion", await added(room, 1, () => first.key("Delete")), [["drop"]])
  const ellipse = [["fill", "#e4572e"], ["height", 80], ["name", ""], ["width", 100], ["x", 400], ["y", 200]]
  expectEqual("undone", await added(room, 1, () => first.key(...UNDO)), [["new", ellipse]])
  expectEqual("what is shown", await shown(), before)
  expectEqual("deleted again", await added(room, 1, () => first.key("Delete")), [["drop"]])
  await first.click("#panel summary")
  const items = `[...document.querySelectorAll(".gone li")].map((one) => one.querySelector("span").textContent)`
  expectEqual("what was deleted, the youngest first", await first.look(items), ["Ellipse", "Ellipse", "Rectangle"])
  await first.picture(join(PICTURES, "deleted-list.png"))
  expectEqual("brought back", (await added(room, 1, () => first.click(".gone li button")))[0][0], "new")
  expectEqual("what is shown then", await shown(), before)
}

/**
 * Each person keeps another version concurrently: all are deleted, both get a notice, and the object can be restored.
 */
async function bothKeepOnly(first, second, room, server) {
  const object = await allDrag([first, second], '.version[aria-label="Ellipse"]', [[-60, 120], [90, 60]])
  const all = `document.querySelectorAll('.version[data-object="${object}"]').length`
  await first.click('[data-focus="pick-A"]')
  await second.click('[data-focus="pick-B"]')
  await signalRoom(server, "SIGSTOP")
  await first.click('.card.picked .keep-only')
  await second.click('.card.picked .keep-only')
  for (const page of [first, second]) expectEqual("what each has kept", await page.look(all), 1)
  const kept = `(() => {
    const box = document.querySelector('.version[data-object="${object}"] .body').getBBox()
    return [box.x, box.y, box.width, box.height]
  })()`
  const firsts = await first.look(kept)
  await signalRoom(server, "SIGCONT")
  for (const page of [first, second]) await page.waitUntil("all is gone", `${all} === 0`)
  const words = ["Ellipse was deleted by others. Bring it back"]
  for (const page of [first, second]) await page.waitUntil("the messages", `${MESSAGES}.length > 0`)
  const notices = [await first.look(`${MESSAGES}.at(-1)`), await second.look(`${MESSAGES}.at(-1)`)]
  expectEqual("the notices", notices, [...words, ...words])
  await first.picture(join(PICTURES, "both-kept.png"))
  const [[word, pairs]] = await added(room, 1, () => first.click("#refusals button"))
  const values = new Map(pairs)
  const box = ["x", "y", "width", "height"].map((key) => values.get(key))
  expectEqual("the restored object", [word, ...box], ["new", ...firsts])
  await second.waitUntil("it is there", `document.querySelector('.version[aria-label="Ellipse"]') !== null`)
}
