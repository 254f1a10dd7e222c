/**
 * Measures the page in a room of many strokes: how long it takes from the begin of its loading until all are drawn, and
 * how many frames a second it has while somebody drags one of them, or moves the view. Arguments: how many strokes
 * (5,000) and how many runs (5). It prints the medians of all runs. The browser draws by the processor, not by a
 * graphics card.
 */

import { Chromium } from "./chromium.mjs"
import { linesOf, onScreen, withRecord } from "./people.mjs"
import { numbersFrom } from "../../../clients/js/tests/checks.js"

const [STROKES, RUNS] = [process.argv[2] ?? 5000, process.argv[3] ?? 5].map(Number)
const POINTS = 16
const COLUMNS = 100
// Strokes like letters of handwriting, side by side.
const [WIDE, HIGH] = [24, 36]
const DRAG_STEPS = 180
const STEP_MILLISECONDS = 16

const median = (numbers) => numbers.toSorted((one, other) => one - other)[numbers.length >> 1]
const share = (numbers, part) => numbers.toSorted((one, other) => one - other)[Math.floor(numbers.length * part)]
const rounded = (number) => Math.round(number * 10) / 10

/** The lines of a record with so many strokes. */
function strokes() {
  const next = numbersFrom(1)
  const pairs = (seq) => {
    const points = Array.from({ length: POINTS }, () => [next(WIDE), next(HIGH)])
    const [x, y] = [(seq % COLUMNS) * WIDE, Math.floor(seq / COLUMNS) * HIGH]
    return [["x", x], ["y", y], ["width", WIDE], ["height", HIGH], ["fill", "#3a86c8"], ["points-0", points.join(" ")]]
  }
  const creations = Array.from({ length: STROKES }, (_, place) =>
    ["new", [1, place + 1], place === 0 ? [] : [[1, place]], "pen", pairs(place)])
  return linesOf([["join", 1], ...creations])
}

/** In the page: when all strokes are drawn, and the times between frames while `isWatching`. */
const WATCH = `
  window.frames = []
  let last = null
  requestAnimationFrame(function look(now) {
    const isDrawn = document.getElementById("shapes")?.childElementCount >= ${STROKES}
    // What this frame has drawn is on the screen before the next one.
    if (isDrawn && window.drawn === undefined) requestAnimationFrame(() => (window.drawn ??= performance.now()))
    if (window.isWatching && last !== null) frames.push(now - last)
    last = now
    requestAnimationFrame(look)
  })`

/** Does something in steps, as often as a screen shows frames. Returns the times between frames. */
async function framesOf(page, act) {
  await page.look("void (frames.length = 0, window.isWatching = true)")
  for (let step = 1; step <= DRAG_STEPS; step++) {
    const rest = new Promise((resolve) => setTimeout(resolve, STEP_MILLISECONDS))
    await act(step)
    await rest
  }
  await page.look("void (window.isWatching = false)")
  return page.look("frames")
}

/** Each run drags another stroke, as the room goes on. */
async function measure(address, run) {
  const browser = await Chromium.start()
  try {
    const page = await browser.open("about:blank", 1240, 720)
    await page.ask("Page.addScriptToEvaluateOnNewDocument", { source: WATCH })
    await page.ask("Page.navigate", { url: address })
    await page.waitUntil("all strokes", "window.drawn !== undefined")
    const drawn = await page.look("drawn")
    await new Promise((resolve) => setTimeout(resolve, 1000))
    const [x, y] = await onScreen(page, [(50.5 + 2 * run) * WIDE, 25.5 * HIGH])
    await page.waitUntil("a stroke to drag", `document.elementFromPoint(${x}, ${y}).closest(".version") !== null`)
    await page.press([x, y])
    const drag = await framesOf(page, (step) => page.mouse("mouseMoved", [x + step, y + step / 3]))
    await page.release([x + DRAG_STEPS, y + DRAG_STEPS / 3])
    const pan = await framesOf(page, () => page.ask("Input.dispatchMouseEvent",
      { type: "mouseWheel", x, y, deltaX: 2, deltaY: 1 }))
    if (page.faults.length > 0) throw new Error(page.faults.join("\n"))
    return { drawn, drag, pan }
  } finally {
    await browser.end()
  }
}

function tell(word, frames) {
  const [usual, slow] = [median(frames), share(frames, 0.95)]
  console.log(`${word}: ${rounded(1000 / usual)} frames a second in the median, ${rounded(usual)} ms between two; ` +
    `95 per cent within ${rounded(slow)} ms; ${frames.length} frames`)
}

await withRecord(strokes(), async (address) => {
  const runs = []
  for (let run = 0; run < RUNS; run++) runs.push(await measure(address, run))
  console.log(`${STROKES} strokes of ${POINTS} points, ${RUNS} runs`)
  const times = runs.map(({ drawn }) => Math.round(drawn))
  console.log(`all are drawn after ${median(times)} ms in the median (${times.join(", ")})`)
  for (const word of ["drag", "pan"]) tell(word, runs.flatMap((run) => run[word]))
})
process.exit()
