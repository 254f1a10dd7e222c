/**
 * Random histories of up to five sites. After each step the library's versions of each object must be those of the
 * program. Each site knows a part of the history, and names a version that the library computes from that part alone.
 * If the program did not find it, the refusal would show.
 */

import assert from "node:assert/strict"
import test from "node:test"
import { Drawing, LIMITS, operationOf } from "../grace.js"
import { LIMIT, numbersFrom } from "./checks.js"
import { script } from "./program.js"
import { historyOf } from "./random_histories.js"

const HISTORIES = Number(process.env.HISTORIES ?? 2000)
// The number of rooms in one process of the program.
const ROOMS = 50

/** Runs histories in one process of the program, and compares all replies. */
async function compare(histories) {
  const lines = histories.flatMap((history) => history.lines)
  const expected = histories.flatMap((history) => history.replies)
  const replies = await script(histories.map(({ room }) => `r${room}`), lines)
  expected.forEach((reply, place) => assert.deepEqual(replies[place], reply, `the reply to ${lines[place]}`))
  assert.equal(replies.length, expected.length, "the replies")
}

test("random histories", async (t) => {
  const seed = Number(process.env.SEED ?? Date.now() % 1000000)
  console.log(`random histories: seed ${seed} (SEED=${seed} runs the same again)`)
  const draw = numbersFrom(seed)
  const all = Array.from({ length: HISTORIES }, (_, room) => historyOf(room, draw))
  for (let room = 0; room < HISTORIES; room += ROOMS) await compare(all.slice(room, room + ROOMS))
  const counts = all.map(({ whole }) => Math.max(0, ...whole.names().map((object) => whole.versions(object).length)))
  const several = counts.filter((count) => count > 1).length
  const isGone = ({ isGone }) => isGone
  const gone = all.filter(({ whole }) => whole.names().some((object) => whole.versions(object).some(isGone))).length
  assert.ok(several > HISTORIES / 4, "too few histories have several versions")
  assert.ok(gone > HISTORIES / 8, "too few histories have a version that is gone")
  const total = (numberOf) => all.reduce((sum, history) => sum + numberOf(history).length, 0)
  const sums = `${total(({ operations }) => operations)} operations, ${total(({ lines }) => lines)} replies`
  const most = Math.max(...counts)
  t.diagnostic(`${HISTORIES} histories, ${sums}`)
  t.diagnostic(`${several} with several versions, up to ${most}, ${gone} with one that is gone`)
})

/** An object with the most changes, and the processor time of one more. */
test("objects of many changes", LIMIT, (t) => {
  const notes = []
  for (const sites of [1, 4]) {
    const drawing = new Drawing()
    drawing.add(operationOf(["new", [1, 1], [], "rect", []]))
    const start = process.cpuUsage()
    for (let change = 0; change < LIMITS.changes; change++) {
      const site = 1 + (change % sites)
      const number = drawing.count(site) + 1
      const seen = site === 1 ? [[1, number - 1]] : [[1, 1], ...(number > 1 ? [[site, number - 1]] : [])]
      drawing.add(operationOf(["put", [site, number], seen, [1, 1], [], [["x", change]]]))
      assert.deepEqual(drawing.versions([1, 1]).length, Math.min(change + 1, sites), "the versions")
    }
    const { user, system } = process.cpuUsage(start)
    const mean = (user + system) / 1000 / LIMITS.changes
    assert.ok(mean < 5, `${mean} ms a put with ${sites} versions`)
    notes.push(`${mean.toFixed(2)} ms a put with ${sites} version${sites > 1 ? "s" : ""}`)
  }
  t.diagnostic(`${LIMITS.changes} puts: ${notes.join(", ")}`)
})

