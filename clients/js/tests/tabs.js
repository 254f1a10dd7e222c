/**
 * A site that lasts, in a headless Chromium with its own locks and storages: tabs that are closed, reloaded and opened
 * again. It needs `chromium`, and is no part of `./test`.
 */

import assert from "node:assert/strict"
import { createServer } from "node:http"
import { readFile } from "node:fs/promises"
import { Chromium } from "../../../examples/whiteboard/tests/chromium.mjs"
import { Server, build } from "./program.js"

const FOLDER = new URL("../", import.meta.url)
const [WIDTH, HEIGHT] = [400, 300]

const pageOf = (address) => `<!doctype html><title>tab</title><script type="module">
import { Room } from "/grace.js"
window.room = new Room("ws://${address}/", "r", { storage: "person", retryMilliseconds: [10, 50] })
</script>`

/** Serves the page, and the library's files. */
async function serve(address) {
  const server = createServer(async ({ url }, answer) => {
    const isPage = url === "/"
    const text = isPage ? pageOf(address) : await readFile(new URL(`.${url}`, FOLDER), "utf8").catch(() => null)
    answer.writeHead(text === null ? 404 : 200, { "Content-Type": isPage ? "text/html" : "text/javascript" })
    answer.end(text ?? "")
  })
  await new Promise((tell) => server.listen(0, "127.0.0.1", tell))
  return { page: `http://127.0.0.1:${server.address().port}/`, end: () => server.close() }
}

build()
const server = await Server.start()
const site = await serve(server.address)
const browser = await Chromium.start()
try {
  const open = async () => {
    const tab = await browser.open(site.page, WIDTH, HEIGHT)
    await tab.waitUntil("the client is in the room", 'window.room?.state === "open"')
    return tab
  }
  const siteOf = (tab) => tab.look("room.site")
  const [first, second] = [await open(), await open()]
  assert.deepEqual([await siteOf(first), await siteOf(second)], [1, 2], "two open tabs")
  await second.look('room.create("rect", { x: 1 }).done')
  await first.close()
  await second.ask("Page.reload")
  const isReloaded = 'performance.getEntriesByType("navigation")[0].type === "reload"'
  await second.waitUntil("the reload", `${isReloaded} && window.room?.state === "open"`)
  assert.equal(await siteOf(second), 2, "a reloaded tab, while the first seat is free")
  const third = await open()
  assert.deepEqual([await siteOf(third), await third.look("room.objects()")], [1, [[2, 1]]], "the next tab")
  await second.close()
  await third.close()
  const [fourth, fifth] = [await open(), await open()]
  assert.deepEqual([await siteOf(fourth), await siteOf(fifth)].sort(), [1, 2], "two later tabs")
  const joins = await fifth.look('room.record.filter(([word]) => word === "join").length')
  assert.equal(joins, 2, "the joins of all tabs")
  assert.deepEqual(browser.pages.flatMap(({ faults }) => faults), [], "faults of the pages")
  console.log("passed: a site that lasts in a browser")
} finally {
  await browser.end()
  site.end()
  await server.end()
}
