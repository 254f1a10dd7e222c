/** Pages of a headless Chromium, driven over its debugging port by real mouse and key events. */

import { spawn } from "node:child_process"
import { existsSync, readFileSync } from "node:fs"
import { mkdtemp, rm, writeFile } from "node:fs/promises"
import { tmpdir } from "node:os"
import { join } from "node:path"
import { WebSocket } from "../../../clients/js/tests/websocket.js"
import { waitUntil } from "../../../clients/js/tests/checks.js"

const WORDS = [
  "--headless=new", "--no-sandbox", "--disable-gpu", "--disable-dev-shm-usage", "--remote-debugging-port=0",
  "--no-first-run", "--disable-background-networking", "--disable-background-timer-throttling",
  "--disable-renderer-backgrounding", "--disable-backgrounding-occluded-windows", "--hide-scrollbars", "about:blank",
]

const KEYS = {
  Backspace: 8, Tab: 9, Enter: 13, Escape: 27, ArrowLeft: 37, ArrowUp: 38, ArrowRight: 39, ArrowDown: 40, Delete: 46,
  F2: 113,
}
/** The modifiers of a key press. */
export const ALT = 1
export const CONTROL = 2
export const SHIFT = 8

/** The browser. `end` closes it. */
export class Chromium {
  #number = 0
  #waiting = new Map()
  pages = []

  /** Starts a browser, with further arguments. */
  static async start(...more) {
    const browser = new Chromium()
    browser.folder = await mkdtemp(join(tmpdir(), "whiteboard-"))
    const program = process.env.CHROMIUM ?? "chromium"
    const words = [`--user-data-dir=${browser.folder}`, ...more, ...WORDS]
    browser.process = spawn(program, words, { stdio: "ignore", detached: true })
    browser.closed = new Promise((tell) => browser.process.on("close", tell).on("error", tell))
    await browser.#connect()
    return browser
  }

  /** Sends a command of the browser's protocol. */
  ask(method, params = {}, sessionId = undefined) {
    this.#number += 1
    this.socket.send(JSON.stringify({ id: this.#number, method, params, sessionId }))
    return new Promise((resolve, reject) => this.#waiting.set(this.#number, { resolve, reject, method }))
  }

  /** Opens a page of this size, at this address. */
  async open(address, width, height, mobile = false) {
    const { targetId } = await this.ask("Target.createTarget", { url: "about:blank", newWindow: true })
    const { sessionId } = await this.ask("Target.attachToTarget", { targetId, flatten: true })
    const page = new Page(this, sessionId, targetId)
    this.pages.push(page)
    await page.ask("Runtime.enable")
    await page.ask("Page.enable")
    await page.ask("Emulation.setFocusEmulationEnabled", { enabled: true })
    await page.ask("Emulation.setDeviceMetricsOverride", { width, height, deviceScaleFactor: 1, mobile })
    await page.ask("Page.navigate", { url: address })
    return page
  }

  async end() {
    try {
      process.kill(-this.process.pid, "SIGKILL")
    } catch {
      // The browser has already exited.
    }
    await this.closed
    await rm(this.folder, { recursive: true, force: true, maxRetries: 5 })
  }

  async #connect() {
    let lines = []
    await waitUntil("the debugging port", () => {
      const file = join(this.folder, "DevToolsActivePort")
      if (existsSync(file)) lines = readFileSync(file, "utf8").split("\n")
      return lines.length > 1
    })
    const [port, path] = lines
    this.socket = new WebSocket(`ws://127.0.0.1:${port}${path}`)
    await new Promise((resolve, reject) => Object.assign(this.socket, { onopen: resolve, onerror: reject }))
    this.socket.onmessage = ({ data }) => this.#hear(JSON.parse(data))
  }

  #hear({ id, result, error, method, params, sessionId }) {
    if (id === undefined) return this.pages.find((page) => page.session === sessionId)?.hear(method, params)
    const waiting = this.#waiting.get(id)
    this.#waiting.delete(id)
    if (error) waiting.reject(new Error(`${waiting.method}: ${error.message}`))
    else waiting.resolve(result)
  }
}

/** A page. `faults` has the errors of its program. */
class Page {
  faults = []
  // By event of the browser's protocol: who waits for it.
  #waiting = new Map()

  constructor(browser, session, target) {
    this.browser = browser
    this.session = session
    this.target = target
  }

  close() {
    return this.browser.ask("Target.closeTarget", { targetId: this.target })
  }

  ask(method, params) {
    return this.browser.ask(method, params, this.session)
  }

  /** Waits for the next event of the browser's protocol with this name. */
  next(method) {
    return new Promise((tell) => this.#waiting.set(method, tell))
  }

  hear(method, params) {
    this.#waiting.get(method)?.(params)
    if (method !== "Runtime.exceptionThrown") return
    const { exception, text } = params.exceptionDetails
    this.faults.push(exception?.description ?? text)
  }

  /** Evaluates an expression in the page, only to read state and never to act. */
  async look(expression) {
    const params = { expression, returnByValue: true, awaitPromise: true }
    const { result, exceptionDetails } = await this.ask("Runtime.evaluate", params)
    if (exceptionDetails) throw new Error(`${expression}: ${exceptionDetails.exception?.description}`)
    return result.value
  }

  /** Waits until an expression in the page is true. */
  async waitUntil(what, expression) {
    for (const end = Date.now() + 60000; Date.now() < end; ) {
      if (await this.look(expression)) return
      await new Promise((resolve) => setTimeout(resolve, 30))
    }
    throw new Error(`not in a minute: ${what}`)
  }

  /** Returns the middle of the first element of a selector on the screen. Scrolls it into view if necessary. */
  async middleOf(selector) {
    const place = await this.look(`(() => {
      const element = document.querySelector(${JSON.stringify(selector)})
      if (element === null) return null
      element.scrollIntoView({ block: "nearest" })
      const { x, y, width, height } = element.getBoundingClientRect()
      return [x + width / 2, y + height / 2]
    })()`)
    if (place === null) throw new Error(`no element ${selector}`)
    return place
  }

  async mouse(type, [x, y], clickCount = 1) {
    const isUp = type === "mouseMoved" && !this.isDown
    const button = isUp ? "none" : "left"
    const buttons = isUp || type === "mouseReleased" ? 0 : 1
    const modifiers = this.modifiers ?? 0
    await this.ask("Input.dispatchMouseEvent", { type, x, y, button, buttons, clickCount, modifiers })
  }

  /** Does something with the mouse while these modifier keys are down. */
  async withKeys(modifiers, act) {
    this.modifiers = modifiers
    await act()
    this.modifiers = 0
  }

  /** Does something while the space bar is down. */
  async withSpace(act) {
    const space = { key: " ", code: "Space", windowsVirtualKeyCode: 32 }
    await this.ask("Input.dispatchKeyEvent", { type: "rawKeyDown", ...space })
    await act()
    await this.ask("Input.dispatchKeyEvent", { type: "keyUp", ...space })
  }

  async press(place) {
    await this.mouse("mouseMoved", place)
    this.isDown = true
    await this.mouse("mousePressed", place)
  }

  async moveTo([x, y]) {
    await this.mouse("mouseMoved", [x - 3, y - 2])
    await this.mouse("mouseMoved", [x, y])
  }

  async release(place) {
    await this.mouse("mouseReleased", place)
    this.isDown = false
    await this.frame()
  }

  /** Waits until the page has drawn: it draws once in a frame. */
  frame() {
    return this.look("new Promise((tell) => requestAnimationFrame(() => requestAnimationFrame(() => tell())))")
  }

  async click(selector) {
    const place = await this.middleOf(selector)
    await this.press(place)
    await this.release(place)
  }

  async drag(from, to) {
    await this.press(from)
    await this.moveTo(to)
    await this.release(to)
  }

  /** Drags along these places. */
  async dragAlong(places) {
    await this.press(places[0])
    await Promise.all(places.slice(1).map((place) => this.mouse("mouseMoved", place)))
    await this.release(places.at(-1))
  }

  async doubleClick(place) {
    await this.mouse("mouseMoved", place)
    for (const count of [1, 2]) {
      await this.mouse("mousePressed", place, count)
      await this.mouse("mouseReleased", place, count)
    }
    await this.frame()
  }

  /** Turns the wheel by this many pixels. */
  async wheel([x, y], deltaX, deltaY, modifiers = 0) {
    await this.ask("Input.dispatchMouseEvent", { type: "mouseWheel", x, y, deltaX, deltaY, modifiers })
    await this.frame()
  }

  /** Does something on a touch screen. The page has larger buttons there, so places are to be looked up within. */
  async withTouch(act) {
    await this.ask("Emulation.setTouchEmulationEnabled", { enabled: true, maxTouchPoints: 2 })
    await this.frame()
    await act()
    await this.ask("Emulation.setTouchEmulationEnabled", { enabled: false })
    await this.frame()
  }

  /** Moves fingers from some places to as many others, on a touch screen. */
  async touch(from, to) {
    const points = (places) => places.map(([x, y], id) => ({ x, y, id }))
    await this.ask("Input.dispatchTouchEvent", { type: "touchStart", touchPoints: points(from) })
    await this.ask("Input.dispatchTouchEvent", { type: "touchMove", touchPoints: points(to) })
    await this.ask("Input.dispatchTouchEvent", { type: "touchEnd", touchPoints: [] })
    await this.frame()
  }

  /** Presses a key. */
  async key(key, modifiers = 0) {
    const text = key === "Enter" ? "\r" : undefined
    const windowsVirtualKeyCode = KEYS[key] ?? (key.length === 1 ? key.toUpperCase().charCodeAt(0) : 0)
    const rest = { key, code: key, windowsVirtualKeyCode, modifiers }
    await this.ask("Input.dispatchKeyEvent", { type: text ? "keyDown" : "rawKeyDown", text, ...rest })
    await this.ask("Input.dispatchKeyEvent", { type: "keyUp", ...rest })
    await this.frame()
  }

  /** Reloads the page, as the browser's button does. */
  async reload() {
    await this.#toNewPage(() => this.ask("Page.reload"))
  }

  /** Clicks an element that leads to another page. */
  async follow(selector) {
    const place = await this.middleOf(selector)
    await this.#toNewPage(async () => {
      await this.press(place)
      await this.mouse("mouseReleased", place)
      this.isDown = false
    })
  }

  /** Waits for the page to which an action leads. The old one may end in the middle of an answer. */
  async #toNewPage(act) {
    await this.ask("Runtime.evaluate", { expression: "window.isOld = true" })
    await act()
    const isNew = "window.isOld === undefined && document.readyState === 'complete'"
    for (const end = Date.now() + 60000; Date.now() < end; ) {
      if (await this.look(isNew).catch(() => false)) return
      await new Promise((resolve) => setTimeout(resolve, 30))
    }
    throw new Error("not in a minute: the new page")
  }

  async write(text) {
    for (const letter of text) await this.ask("Input.dispatchKeyEvent", { type: "char", text: letter })
  }

  /** Stores a picture of the page in a file. */
  async picture(file) {
    const { data } = await this.ask("Page.captureScreenshot", { format: "png" })
    await writeFile(file, Buffer.from(data, "base64"))
  }
}
