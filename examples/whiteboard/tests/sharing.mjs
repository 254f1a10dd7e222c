/**
 * Links to drawings: a button copies the link, another begins a new drawing, and a page that is let into no room says
 * why.
 */

import { mkdtemp, rm } from "node:fs/promises"
import { tmpdir } from "node:os"
import { join } from "node:path"
import { expect, expectEqual } from "../../../clients/js/tests/checks.js"
import { Server } from "../../../clients/js/tests/program.js"
import { COUNT, HEADING, PICTURES, STATE, draw, endAll, faults, isOpen, pageOf, serve, step } from "./people.mjs"

const SHARE = `document.getElementById("share").textContent`
const LINK = `document.querySelector("#link input")`
const LOADING = `document.querySelector("#loading p").textContent`
const NO_ROOM = "There is no drawing under this link, and this server begins no new ones."
const NO_PLACE = "The server cannot open this room now: it may have no place for one more. Trying again."
const NEW_NAME = /^[0-9a-f]{32}$/

export async function sharing(browser) {
  const { server, address } = await serve("--in-memory", "--sessions", "50")
  try {
    await step("a button copies the link", () => linkCopied(browser, address))
    await step("a link where the clipboard is denied", () => clipboardDenied(browser, address))
    await step("a button begins a new drawing", () => newDrawing(browser, address))
    await step("a link to no room", () => noRoom(browser, address))
    await step("a server that tells rooms apart by the path", () => byPath(browser, address))
  } finally {
    server.kill()
  }
  await step("a new drawing for which there is no place yet", () => noPlace(browser))
}

/** The room that an address names. */
const roomOf = (address) => new URL(address).searchParams.get("room")

async function linkCopied(browser, address) {
  const { origin } = new URL(address)
  const permissions = ["clipboardReadWrite", "clipboardSanitizedWrite"]
  await browser.ask("Browser.grantPermissions", { origin, permissions })
  const first = await browser.open(address, 1240, 720)
  await isOpen(first)
  await draw(first, "rect", [120, 200], [380, 360])
  await first.click("#share")
  await first.waitUntil("the words", `${SHARE} === "Link copied"`)
  const link = await first.look("navigator.clipboard.readText()")
  expectEqual("the link", link, (await pageOf(address)).href)
  expectEqual("what is shown of it", await first.look(`${LINK} === null`), true)
  const second = await browser.open(link, 1240, 720)
  await isOpen(second)
  await second.waitUntil("the rectangle", `${COUNT} === 1`)
  await first.waitUntil("the button's own word", `${SHARE} === "Share"`)
  faults(first, second)
  await first.picture(join(PICTURES, "buttons.png"))
  for (const page of [first, second]) await page.close()
}

/** The page shows the link, selected, until the person closes it. */
async function clipboardDenied(browser, address) {
  const { origin } = new URL(address)
  await browser.ask("Browser.setPermission", { origin, permission: { name: "clipboard-write" }, setting: "denied" })
  const page = await browser.open(address, 1240, 720)
  await isOpen(page)
  await page.click("#share")
  await page.waitUntil("the link", `${LINK} !== null`)
  const { href } = await pageOf(address)
  expectEqual("the link", await page.look(`${LINK}.value`), href)
  expectEqual("what is selected", await page.look("getSelection().toString()"), href)
  expectEqual("the button", await page.look(SHARE), "Share")
  await page.picture(join(PICTURES, "link.png"))
  await page.click("#share")
  expectEqual("the links after a second press", await page.look(`document.querySelectorAll("#link input").length`), 1)
  await page.click("#link button")
  expectEqual("what is shown after the close", await page.look(`${LINK} === null`), true)
  faults(page)
  await page.close()
  await browser.ask("Browser.resetPermissions")
}

/** A new drawing has a name of its own each time. It is empty, and whoever has its link draws in it. */
async function newDrawing(browser, address) {
  const names = []
  for (let time = 0; time < 2; time++) {
    const pages = [await browser.open(address, 1240, 720)]
    await isOpen(pages[0])
    await pages[0].follow("#new")
    await isOpen(pages[0])
    const link = await pages[0].look("location.href")
    names.push(roomOf(link))
    const expected = await pageOf(address)
    expected.searchParams.set("room", names.at(-1))
    expectEqual("the link", link, expected.href)
    await pages[0].frame()
    expectEqual("the heading", await pages[0].look(HEADING), "Nothing is drawn yet")
    pages.push(await browser.open(link, 1240, 720))
    await isOpen(pages[1])
    await draw(pages[1], "rect", [120, 200], [380, 360])
    await pages[0].waitUntil("the rectangle", `${COUNT} === 1`)
    faults(...pages)
    for (const page of pages) await page.close()
  }
  expect(`the names ${names}`, names.every((name) => NEW_NAME.test(name)) && names[0] !== names[1])
}

/** Opens the page at this room of another server than its own. */
async function openAt(browser, address, server, room) {
  const place = await pageOf(address)
  place.searchParams.set("server", server)
  place.searchParams.set("room", room)
  return browser.open(place.href, 1240, 720)
}

/** A server without rooms on demand has no further room, and the page says so. */
async function noRoom(browser, address) {
  const server = await Server.start(10)
  try {
    const page = await openAt(browser, address, `ws://${server.address}/`, "elsewhere")
    await page.waitUntil("the end", `document.getElementById("state")?.dataset.state === "closed"`)
    await page.frame()
    expectEqual("the words", await page.look(LOADING), NO_ROOM)
    expect("the line of the state", (await page.look(STATE)).startsWith("The server has no room with this name."))
    expectEqual("the bar", await page.look(`document.querySelector("#loading progress").checkVisibility()`), false)
    expectEqual("the heading", await page.look(HEADING), "No drawing")
    await page.picture(join(PICTURES, "no-room.png"))
    faults(page)
    await page.close()
  } finally {
    await server.end()
  }
}

/** The path of the connection is the room's name, also where the address of the server has a name already. */
async function byPath(browser, address) {
  const server = await Server.start(10, "--by-path", "--rooms", "5")
  try {
    for (const path of ["", "r"]) {
      const page = await openAt(browser, address, `ws://${server.address}/${path}`, "r")
      await isOpen(page)
      await page.follow("#new")
      await isOpen(page)
      const link = new URL(await page.look("location.href"))
      expectEqual("the server in the link", link.searchParams.get("server"), `ws://${server.address}/`)
      expect("the room in the link", NEW_NAME.test(roomOf(link.href)))
      faults(page)
      await page.close()
    }
  } finally {
    await server.end()
  }
}

/** Where no further room can be open, the page says so and tries again, until somebody leaves one. */
async function noPlace(browser) {
  const folder = await mkdtemp(join(tmpdir(), "whiteboard-room-"))
  const { server, address } = await serve("--keep", folder, "--rooms", "1")
  try {
    const pages = [await browser.open(address, 1240, 720), await browser.open(address, 1240, 720)]
    for (const page of pages) await isOpen(page)
    await pages[0].follow("#new")
    await isOpen(pages[0])
    await pages[1].follow("#new")
    await pages[1].waitUntil("the words", `${LOADING} === ${JSON.stringify(NO_PLACE)}`)
    expectEqual("the line of the state", await pages[1].look(STATE), NO_PLACE)
    expectEqual("the heading", await pages[1].look(HEADING), "Loading")
    await pages[1].picture(join(PICTURES, "no-place.png"))
    faults(...pages)
    await pages[0].close()
    await isOpen(pages[1])
    await pages[1].close()
  } finally {
    endAll(server)
    await rm(folder, { recursive: true })
  }
}
