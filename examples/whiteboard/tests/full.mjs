/** A drawing that fills up. It goes on in a new room; where it cannot, the page warns. The page opens in time. */

import { existsSync } from "node:fs"
import { join } from "node:path"
import { expect, expectEqual } from "../../../clients/js/tests/checks.js"
import {
  COUNT, HEADING, LIST, PICTURES, STATE, TOLD, draw, faults, isOpen, linesOf, noteMessages, step, withRecord,
} from "./people.mjs"

const OPENED_MILLISECONDS = 30000
// A room is renewed if it draws at most 6,144 objects.
export const TOO_MANY = 6200
// More than the entries after which the server looks whether a room is nearly full.
const MOST_DRAWN = 40
const HELPS = "Delete what is not needed, or begin a new drawing."

export async function full(browser) {
  await step("the objects are nearly used up", () => warns(browser, recordOf(7436, 7437), "objects",
    `The drawing is nearly full: it has 7,437 of 8,192 objects. ${HELPS}`))
  await step("the objects are used up", () => warns(browser, recordOf(8191, 8192), "last-object",
    "The drawing is full: no more objects fit."))
  await step("the entries are nearly used up", () => warns(browser, recordOf(TOO_MANY, 14808), "entries",
    `The drawing is nearly full: it has 14,810 of 16,384 entries. ${HELPS}`))
  await step("the entries are used up", () => warns(browser, recordOf(TOO_MANY, 16382), "last-entry",
    "The drawing is full: nothing can be changed any more."))
  await step("nine tenths of the entries are used", () => goesOn(browser))
  await step("the entries are used up before a start", () => renewedAtStart(browser))
}

/** The lines of a record with this many objects and entries. Its author puts values to the objects in turn. */
export function recordOf(objects, entries) {
  const operation = (seq) => {
    const seen = seq > 1 ? [[1, seq - 1]] : []
    const [x, y] = [(seq % 100) * 12, Math.floor(seq / 100) * 9]
    const drawn = [["x", x], ["y", y], ["width", 8], ["height", 7], ["fill", "#3a86c8"], ["points-0", "0,7 4,0 8,7"]]
    if (seq <= objects) return ["new", [1, seq], seen, "pen", drawn]
    return ["put", [1, seq], seen, [1, (seq % objects) + 1], [], [["fill", "#4c9f70"]]]
  }
  const operations = Array.from({ length: entries - 1 }, (_, place) => operation(place + 1))
  return linesOf([["join", 1], ...operations])
}

/** Opens a room with this record, and draws an object. The page says these words then, and nothing like it before. */
const warns = (browser, record, word, words) => withRecord(record, async (address) => {
  const start = performance.now()
  const page = await browser.open(address, 1240, 720)
  await isOpen(page)
  await page.frame()
  const opened = performance.now() - start
  console.log(`        opened in ${Math.round(opened)} ms`)
  expect(`it opens within ${OPENED_MILLISECONDS} ms: ${Math.round(opened)}`, opened <= OPENED_MILLISECONDS)
  const objects = await page.look(COUNT)
  const before = await page.look(STATE)
  expect(`what it says before: ${before}`, !before.includes(words.split(":")[0]))
  await draw(page, "rect", [300, 300], [380, 360])
  await page.waitUntil("the words", `${STATE}.includes(${JSON.stringify(words)})`)
  expectEqual("the objects", await page.look(COUNT), objects + 1)
  await page.key("Escape")
  await page.frame()
  expectEqual("the number in the list", (await page.look(HEADING)).replace(/\D/g, ""), `${objects + 1}`)
  expectEqual("the list", (await page.look(LIST)).length, Math.min(objects + 1, 300))
  await page.picture(join(PICTURES, `full-${word}.png`))
  faults(page)
  await page.close()
})

/** A room that draws few objects goes on in a new one. The page does not warn, and tells nothing. */
const goesOn = (browser) => withRecord(recordOf(32, 14738), async (address, folder) => {
  const page = await browser.open(address, 1240, 720)
  await isOpen(page)
  await noteMessages(page)
  let drawn = 0
  for (; drawn < MOST_DRAWN && !existsSync(join(folder, "people.2.record")); drawn++) {
    await draw(page, "rect", [300 + 20 * drawn, 300], [310 + 20 * drawn, 360])
    expectEqual("what it says", await page.look(`/full/.test(${STATE})`), false)
  }
  expect("there is a new room", drawn < MOST_DRAWN)
  await isOpen(page)
  expectEqual("what it tells", await page.look(TOLD), [])
  expectEqual("what it says then", await page.look(STATE), "Connected.")
  expectEqual("the objects", await page.look(COUNT), 32 + drawn)
  faults(page)
  await page.close()
})

/** A start renews a room whose entries are used up. Two people draw on. */
const renewedAtStart = (browser) => withRecord(recordOf(32, 16382), async (address) => {
  const pages = []
  for (let person = 0; person < 2; person++) {
    pages.push(await browser.open(address, 1240, 720))
    await isOpen(pages[person])
    await draw(pages[person], "rect", [300 + 100 * person, 300], [380 + 100 * person, 360])
  }
  for (const page of pages) {
    await page.waitUntil("both objects", `${COUNT} === 34`)
    expectEqual("what it says", await page.look(STATE), "Connected.")
  }
  faults(...pages)
  for (const page of pages) await page.close()
})
