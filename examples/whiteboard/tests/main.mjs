/**
 * Runs the tests of the whiteboard, or the parts of them that are arguments: pages of a browser in a room. PICTURES
 * names the folder of the pictures.
 */

import { mkdir } from "node:fs/promises"
import { join } from "node:path"
import { expect, expectEqual } from "../../../clients/js/tests/checks.js"
import { Chromium } from "./chromium.mjs"
import { choosing } from "./choosing.mjs"
import { comingBack } from "./coming_back.mjs"
import * as connections from "./connections.mjs"
import * as deleting from "./deleting.mjs"
import { embedding } from "./embedding.mjs"
import { floorPlan } from "./floor_plan.mjs"
import { full } from "./full.mjs"
import { keepingWork } from "./keeping_work.mjs"
import { lines } from "./lines.mjs"
import { live } from "./live.mjs"
import { looking } from "./looking.mjs"
import { makers } from "./makers.mjs"
import { menus } from "./menus.mjs"
import { opening } from "./opening.mjs"
import { COUNT, PICTURES, counts, faults, isOpen, serve, step, watch } from "./people.mjs"
import { phone } from "./phone.mjs"
import { plan } from "./plan.mjs"
import { presence } from "./presence.mjs"
import { renewedInUse } from "./renewed_in_use.mjs"
import { renewing } from "./renewing.mjs"
import { saving } from "./saving.mjs"
import { several } from "./several.mjs"
import { sharing } from "./sharing.mjs"
import { sketching } from "./sketching.mjs"
import { snapping } from "./snapping.mjs"
import { styles } from "./styles.mjs"
import { takingAlong } from "./taking_along.mjs"
import { texts } from "./texts.mjs"
import * as together from "./together.mjs"
import { tools } from "./tools.mjs"
import { undoing } from "./undoing.mjs"
import { visits } from "./visits.mjs"

const keep = (page, word) => page.picture(join(PICTURES, `${word}.png`))

async function smallScreen(page) {
  await isOpen(page)
  await page.waitUntil("all versions", `${COUNT} === 6`)
  await page.click('.version[data-letter="B"] .body')
  await page.waitUntil("the cards", `document.querySelectorAll(".card").length === 2`)
  expectEqual("what has the focus", await page.look("document.activeElement.dataset.letter"), "B")
  expect("nothing is wider than the screen", await page.look("document.documentElement.scrollWidth <= 390"))
}

/** Two people and then more in one room, step by step. */
async function inOneRoom(browser, address) {
  // The pages open in sequence, so the second one's version of a concurrent drag is B.
  const first = await browser.open(address, 1240, 720)
  await isOpen(first)
  const second = await browser.open(address, 1240, 720)
  await isOpen(second)
  const room = await watch(address)
  await step("two people draw", () => together.twoDraw(first, second))
  await keep(second, "drawn")
  await step("an object is named", () => together.name(first, second))
  await step("both drag one rectangle at once", () => together.dragAtOnce(first, second))
  await keep(first, "dragged-by-first")
  await step("one version is picked and coloured", () => together.pickAndPaint(first, second))
  await keep(second, "two-versions")
  await step("two names at once", () => together.nameAtOnce(first, second))
  await keep(second, "one-place")
  const third = await browser.open(address, 1240, 720)
  await step("a third person comes late", () => together.late(first, third))
  await step("a version has to be picked first", () => together.toldToPick(third))
  await keep(third, "told")
  await step("keys alone", () => together.keys(first, second))
  await keep(first, "keys")
  const small = await browser.open(address, 390, 844, true)
  await step("a small screen", () => smallScreen(small))
  await keep(small, "small")
  await step("a lost connection", () => connections.lostConnection(browser, address, first))
  await step("a page is reloaded", () => connections.loadedAnew(first, second, room))
  await step("each action is one entry", () => together.onePut(first, room))
  await step("unusual shapes of other clients", () => together.oddShapes(first, second, room))
  await step("a press while others draw", () => together.pressMeanwhile(first, room))
  await step("a key deletes", () => deleting.deleteByKey(first, second, room))
  await step("a button deletes", () => deleting.deleteByButton(first, second, room))
  await step("one of two versions is deleted", () => deleting.deleteVersion(first, second, room))
  await step("one of three versions is kept alone", () => deleting.keepOnly([first, second, third], room))
  await step("deleted while another moved it", () => deleting.deletedMeanwhile(first, second, room))
  await step("a version deleted while another moved it", () => deleting.versionDeletedMeanwhile(first, second, third))
  await step("a late page at the end", () => deleting.lateAfterAll(browser, address, first))
  await step("no page had a fault", () => faults(first, second, third, small))
  room.close()
}

/** One room of several people, and what then happens to its server. */
async function oneRoom(browser) {
  const { server, address } = await serve()
  try {
    await inOneRoom(browser, address)
    await step("a page that is not let in", () => connections.notLetIn(browser, address))
    await step("a room that started again", () => connections.begunAnew(browser, address))
  } finally {
    server.kill()
  }
}

async function servers(browser) {
  await step("a whiteboard that is killed and started again", () => connections.killed(browser))
  await step("a whiteboard whose room is gone", () => connections.roomGone())
  await step("a whiteboard at another address", () => connections.atAnotherAddress(browser))
  await step("the same ports at each start", () => connections.samePorts(browser))
  await step("a port that is taken", () => connections.portTaken())
  await step("a link at the usual ports", () => connections.atUsualPorts(browser))
}

// Each has a whiteboard of its own.
const PARTS = {
  together: oneRoom, plan, undoing, choosing, tools, lines, styles, texts, several, sketching, looking, presence,
  makers, opening, full, keepingWork, saving, sharing, renewing, renewedInUse, takingAlong,
  phone, snapping, embedding, live, visits, comingBack, menus, floorPlan, servers,
}

/** Runs all parts, or those whose names are arguments. */
async function all(browser) {
  const names = process.argv.slice(2)
  const unknown = names.filter((name) => !Object.hasOwn(PARTS, name))
  if (unknown.length > 0) throw new Error(`no such part: ${unknown}; there are ${Object.keys(PARTS)}`)
  for (const name of names.length > 0 ? names : Object.keys(PARTS)) await PARTS[name](browser)
}

await mkdir(PICTURES, { recursive: true })
let browser
// A signal ends the browser too.
for (const signal of ["SIGINT", "SIGTERM", "SIGHUP"]) {
  process.on(signal, async () => {
    await browser?.end()
    process.exit(1)
  })
}
try {
  browser = await Chromium.start()
  await all(browser)
} catch (fault) {
  console.log(`failed: ${fault.stack}`)
  counts.failed += 1
} finally {
  await browser?.end()
}
console.log(`pictures: ${PICTURES}`)
console.log(`${counts.passed} passed, ${counts.failed} failed`)
process.exit(counts.passed > 0 && counts.failed === 0 ? 0 : 1)
