/** Texts: on empty paper, of several lines, in three sizes, and longer than a value. */

import { join } from "node:path"
import { expect, expectEqual } from "../../../clients/js/tests/checks.js"
import { TEXT_BYTES, TEXT_KEYS, bytesOf, textAttributes, textIn, truncate } from "../texts.js"
import { CONTROL } from "./chromium.mjs"
import { COUNT, MESSAGES, PICTURES, added, draw, onScreen, signalRoom, step, twoPeople } from "./people.mjs"

const FIELD = `document.querySelector("#writing textarea")`
const LEFT = `document.querySelector("#writing .left").textContent`
const SHOWN = `[...document.querySelectorAll(".version text")].map((one) =>
  [...one.querySelectorAll("tspan")].map((line) => line.textContent))`

export async function texts(browser) {
  await step("the pieces of a text", pieces)
  await twoPeople(browser, async ({ first, second, room, server }) => {
    await step("a text on empty paper", () => onPaper(first, second, room))
    await step("a text by a double click", () => byDoubleClick(first, room))
    await step("three sizes", () => sizes(first, second, room))
    await step("a text that was emptied", () => emptied(first, room))
    await step("a long text", () => long(first, second, room))
    await step("a text that is too long", () => tooLong(first, second, room))
    await step("two long texts at once", () => atOnce(first, second, room, server))
  })
}

function pieces() {
  for (const letter of ["a", "ä", "漢", "🙂"]) {
    const text = letter.repeat(TEXT_BYTES / bytesOf(letter))
    const attributes = textAttributes(text)
    expectEqual(`the text of ${letter}`, textIn(new Map(Object.entries(attributes))), text)
    expect("each fits a value", Object.values(attributes).every((piece) => bytesOf(piece) <= 256))
    expect("all fit into one put", Object.keys(attributes).length <= 16)
    expectEqual("what is cut", truncate(`${text}🙂`), text)
  }
  const before = new Map(Object.entries(textAttributes("x".repeat(600))))
  expectEqual("a shorter text", textAttributes("", before), { name: "", "name-2": "", "name-3": "" })
  expectEqual("half a letter", truncate("a\ud800"), "a\ufffd")
  expectEqual("what is not seen", truncate("a\u0000\u0007\u001b\n\tb"), "a\n\tb")
}

async function clickAt(page, place) {
  const at = await onScreen(page, place)
  await page.press(at)
  await page.release(at)
}

const end = (page) => page.key("Enter", CONTROL)

async function onPaper(first, second, room) {
  await first.key("t")
  await clickAt(first, [100, 110])
  const write = async () => {
    await first.write("Harbour")
    await first.key("Enter")
    await first.write("master")
    await end(first)
  }
  expectEqual("a text", await added(room, 1, write), [["new",
    [["x", 100], ["y", 100], ["fill", "#3a86c8"], ["name", "Harbour\nmaster"]]]])
  for (const page of [first, second]) {
    await page.waitUntil("the text", `${COUNT} === 1`)
    expectEqual("its lines", await page.look(SHOWN), [["Harbour", "master"]])
  }
  await first.picture(join(PICTURES, "text.png"))
  expectEqual("a move", await added(room, 1, async () =>
    first.drag(await onScreen(first, [130, 112]), await onScreen(first, [160, 142]))),
    [["put", [["x", 130], ["y", 130]]]])
  const words = `document.querySelector(".version").getAttribute("aria-label")`
  expectEqual("its name", await second.look(words), "Text “Harbour master”")
}

async function byDoubleClick(first, room) {
  await first.doubleClick(await onScreen(first, [500, 110]))
  const write = async () => {
    await first.write("Quay")
    await clickAt(first, [700, 700])
  }
  expectEqual("a text that a click elsewhere ends", (await added(room, 1, write))[0][1].at(-1), ["name", "Quay"])
  await first.doubleClick(await onScreen(first, [500, 300]))
  await first.write("Pier")
  const hint = await first.look(`document.getElementById("hint").textContent`)
  expectEqual("what the page says", hint, "Enter makes a line. Escape, or a click elsewhere, ends the text.")
  const [[, pairs]] = await added(room, 1, () => first.key("Escape"))
  expectEqual("a text that Escape ends", pairs.at(-1), ["name", "Pier"])
  await added(room, 1, () => first.key("Delete"))
  await first.doubleClick(await onScreen(first, [500, 300]))
  expectEqual("an empty text", await added(room, 0, () => end(first)), [])
}

async function sizes(first, second, room) {
  await clickAt(first, [520, 110])
  const size = `document.querySelectorAll(".version text")[1].getAttribute("font-size")`
  expectEqual("at first", await second.look(size), "20")
  const wide = await first.look(`document.querySelectorAll(".version .body")[1].getBBox().width`)
  const choose = (word) => added(room, 1, () => first.click(`[data-focus="size-${word}"]`))
  expectEqual("large", await choose("large"), [["put", [["size", "large"]]]])
  await second.waitUntil("larger letters", `${size} === "32"`)
  const wider = await second.look(`document.querySelectorAll(".version .body")[1].getBBox().width`)
  expect("a larger box", wider > 1.4 * wide)
  await first.picture(join(PICTURES, "text-sizes.png"))
  expectEqual("small", await choose("small"), [["put", [["size", "small"]]]])
  expectEqual("undone", await added(room, 1, () => first.key("z", CONTROL)), [["put", [["size", "large"]]]])
}

async function emptied(first, room) {
  await first.doubleClick(await onScreen(first, [520, 110]))
  const empty = async () => {
    await first.key("Backspace")
    await end(first)
  }
  expectEqual("it is deleted", await added(room, 1, empty), [["drop"]])
  expectEqual("undone", (await added(room, 1, () => first.key("z", CONTROL)))[0][0], "new")
  await added(room, 1, () => first.key("Delete"))
}

/** Inserts a text as the browser does for a paste. */
const insert = (page, text) => page.ask("Input.insertText", { text })

const LINES = Array.from({ length: 40 }, (_, line) => `Line ${line} ${"of a long text ".repeat(5)}`.trimEnd())
const LONG = LINES.join("\n")

async function long(first, second, room) {
  await draw(first, "rect", [100, 250], [1100, 750])
  await first.key("F2")
  await insert(first, LONG.slice(0, 3000))
  expectEqual("before 80 per cent", await first.look(LEFT), "")
  await insert(first, LONG.slice(3000))
  expectEqual("what is left", await first.look(LEFT), `${4000 - LONG.length} of 4,000 bytes left`)
  await first.picture(join(PICTURES, "long-text-field.png"))
  const [[word, pairs]] = await added(room, 1, () => end(first))
  expectEqual("the put", [word, pairs.map(([key]) => key)], ["put", TEXT_KEYS.slice(0, Math.ceil(LONG.length / 256))])
  expectEqual("the text", pairs.map(([, piece]) => piece).join(""), LONG)
  await second.waitUntil("the text", `(${SHOWN}).at(-1)[0].startsWith("Line 0")`)
  expectEqual("what the other shows", (await second.look(`(${SHOWN}).at(-1)`)).join(" "), LINES.join(" "))
  await second.picture(join(PICTURES, "long-text-shown.png"))
}

async function tooLong(first, second, room) {
  await first.key("F2")
  await insert(first, "漢".repeat(1400))
  const cut = "The text is too long, and was cut after 4,000 bytes."
  await first.waitUntil("the message", `${MESSAGES}.includes("${cut}")`)
  expectEqual("what is left", await first.look(LEFT), "1 of 4,000 bytes left")
  expectEqual("the letters", await first.look(`${FIELD}.value.length`), 1333)
  await first.picture(join(PICTURES, "text-cut.png"))
  const [[, pairs]] = await added(room, 1, () => end(first))
  expectEqual("the put", pairs.length, 16)
  expectEqual("one step back", textIn(new Map((await added(room, 1, () => first.key("z", CONTROL)))[0][1])), LONG)
  await second.waitUntil("the text of before", `(${SHOWN}).at(-1)[0].startsWith("Line 0")`)
}

/** Two people change different ends of a text. Each version has the whole text of one of them. */
async function atOnce(first, second, room, server) {
  const texts = [`First ${LONG}`.slice(0, 3400), `${LONG.slice(0, 3300)} second`]
  await second.click(".version:last-child .body")
  await signalRoom(server, "SIGSTOP")
  for (const [place, page] of [first, second].entries()) {
    await page.key("F2")
    await insert(page, texts[place])
    await end(page)
  }
  await added(room, 2, () => signalRoom(server, "SIGCONT"))
  for (const page of [first, second]) await page.waitUntil("both versions", `${COUNT} === 3`)
  const [name] = room.objects().filter((one) => room.versions(one).length > 1)
  expectEqual("the texts", room.versions(name).map(({ attributes }) => textIn(attributes)).sort(), texts.sort())
}
