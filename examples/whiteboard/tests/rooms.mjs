/** Tests that have a room each, under one server: a test names its pages, and they are closed behind it. */

import { waitUntil } from "../../../clients/js/tests/checks.js"
import { WebSocket } from "../../../clients/js/tests/websocket.js"
import { Room } from "../../../clients/js/grace.js"
import { faults, isOpen, pageOf, serve, step } from "./people.mjs"

/** A room of a test. */
class OwnRoom {
  #pages = []
  #clients = []

  constructor(browser, link) {
    Object.assign(this, { browser, link: link.href, server: link.searchParams.get("server") })
    this.name = link.searchParams.get("room")
  }

  /** Opens a page in the room, and waits until it is there. `link` leads elsewhere. */
  async open(width = 1240, height = 720, isPhone = false, link = this.link) {
    const page = await this.browser.open(link, width, height, isPhone)
    this.#pages.push(page)
    await isOpen(page)
    return page
  }

  /** Closes a page, as a person closes a tab. */
  async close(page) {
    this.#pages.splice(this.#pages.indexOf(page), 1)
    await page.close()
  }

  /** The link to another room beside this one. */
  get otherLink() {
    const link = new URL(this.link)
    link.searchParams.set("room", `${this.name}-other`)
    return link.href
  }

  /** Connects a client beside the pages. Its record shows what they did. */
  async watch() {
    const client = new Room(this.server, this.name, { connect: (it) => new WebSocket(it), roomInPath: true })
    this.#clients.push(client)
    await waitUntil("a client beside the pages", () => client.state === "open")
    return client
  }

  async end() {
    for (const client of this.#clients) client.close()
    for (const page of this.#pages) await page.close()
  }

  /** Expects that no page had a fault. */
  check() {
    faults(...this.#pages)
  }
}

/**
 * Runs tests by name, each with a room of its own.
 * @param {any} browser
 * @param {Record<string, (room: OwnRoom) => Promise<void>>} tests
 */
export async function inOwnRooms(browser, tests) {
  const { server, address } = await serve("--in-memory", "--sessions", "0")
  const link = await pageOf(address)
  try {
    for (const [place, [name, test]] of Object.entries(tests).entries()) {
      link.searchParams.set("room", `test-${place}`)
      const room = new OwnRoom(browser, link)
      await step(name, () => runIn(room, test))
    }
  } finally {
    server.kill()
  }
}

async function runIn(room, test) {
  try {
    await test(room)
    room.check()
  } finally {
    await room.end()
  }
}
