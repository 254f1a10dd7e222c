/** What a client takes with it from a room that has ended into its successor: rows by hand, and random histories. */

import assert from "node:assert/strict"
import test from "node:test"
import { Drawing, LIMITS, entryOf, operationOf, writeText } from "../grace.js"
import { Transfer, drawSame, drawingOf, drawnObjects } from "../transfer.js"
import { LIMIT, numbersFrom } from "./checks.js"
import { renewalOf, verdictOf } from "./program.js"
import { historyOf } from "./random_histories.js"

const HISTORIES = 200
const MADE = ["new", [1, 1], [], "rect", [["x", 0]]]
const START = [["join", 1], ["new", [1, 1], [], "rect", [["x", 0]]]]
const put = (name, seen, id, attributes, object = [1, 1]) => ["put", name, seen, object, id, attributes]
const manyKeys = (letter, count) => Array.from({ length: count }, (_, key) => [`${letter}${key}`, 1])

// The client is site 1 of the old room and site 9 of the successor. A row has a name, the old record, the pending
// operations, the successor's first entries, the operations that the client sends, and the copies.
const ROWS = [
  ["nothing pending", [MADE], [], START, [], []],
  ["a put", [MADE], [put([1, 2], [[1, 1]], [], [["x", 5]])], START,
    [put([9, 1], [[1, 1]], [], [["x", 5]])], []],
  ["two puts are one", [MADE], [put([1, 2], [[1, 1]], [], [["x", 5]]), put([1, 3], [[1, 2]], [], [["x", 6], ["y", 7]])],
    START, [put([9, 1], [[1, 1]], [], [["x", 6], ["y", 7]])], []],
  ["a put of the same value", [MADE], [put([1, 2], [[1, 1]], [], [["x", 0]])], START, [], []],
  ["a put beside another that it had not seen", [MADE, put([2, 1], [[1, 1]], [], [["y", 7]])],
    [put([1, 2], [[1, 1]], [], [["x", 5]])],
    [["join", 1], ["new", [1, 1], [], "rect", [["x", 0], ["y", 7]]]],
    [put([9, 1], [[1, 1]], [], [["x", 5]])], []],
  ["a put that conflicts with another that it had not seen", [MADE, put([2, 1], [[1, 1]], [], [["x", 9], ["y", 7]])],
    [put([1, 2], [[1, 1]], [], [["x", 5]])],
    [["join", 1], ["new", [1, 1], [], "rect", [["x", 9], ["y", 7]]]],
    [["new", [9, 1], [[1, 1]], "rect", [["x", 5]]]], [[[1, 1], [9, 1]]]],
  ["a put on the second of two versions",
    [MADE, put([2, 1], [[1, 1]], [], [["x", 5]]), put([3, 1], [[1, 1]], [], [["x", 9]])],
    [put([1, 2], [[1, 1], [2, 1], [3, 1]], [[3, 1]], [["fill", "red"]])],
    [["join", 1], ["join", 2], ["new", [1, 1], [], "rect", []], put([1, 2], [[1, 1]], [], [["x", 5]]),
      put([2, 1], [[1, 1]], [], [["x", 9]])],
    [put([9, 1], [[1, 2], [2, 1]], [[2, 1]], [["fill", "red"]])], []],
  ["a drop", [MADE], [["drop", [1, 2], [[1, 1]], [1, 1], []]], START, [["drop", [9, 1], [[1, 1]], [1, 1], []]], []],
  ["a drop of what was changed meanwhile", [MADE, put([2, 1], [[1, 1]], [], [["x", 9]])],
    [["drop", [1, 2], [[1, 1]], [1, 1], []]], [["join", 1], ["new", [1, 1], [], "rect", [["x", 9]]]], [], []],
  ["a put on what was deleted meanwhile", [MADE, ["drop", [2, 1], [[1, 1]], [1, 1], []]],
    [put([1, 2], [[1, 1]], [], [["x", 5]])], [], [["new", [9, 1], [], "rect", [["x", 5]]]], []],
  ["a new object", [MADE],
    [["new", [1, 2], [[1, 1]], "line", [["x", 1]]], put([1, 3], [[1, 2]], [], [["x", 2]], [1, 2])], START,
    [["new", [9, 1], [[1, 1]], "line", [["x", 2]]]], []],
  ["a new object that is deleted again", [MADE],
    [["new", [1, 2], [[1, 1]], "line", []], ["drop", [1, 3], [[1, 2]], [1, 2], []]], START, [], []],
  ["a new object of more attributes than a creation takes", [],
    [["new", [1, 1], [], "line", manyKeys("a", 16)], put([1, 2], [[1, 1]], [], [["b", 2]])], [],
    [["new", [9, 1], [], "line", manyKeys("a", 16).sort()], put([9, 2], [[9, 1]], [], [["b", 2]], [9, 1])], []],
  ["an object before it that is not drawn",
    [["new", [1, 1], [], "line", []], ["drop", [1, 2], [[1, 1]], [1, 1], []],
      ["new", [1, 3], [[1, 2]], "rect", [["x", 0]]]],
    [put([1, 4], [[1, 3]], [], [["x", 5]], [1, 3])], START, [put([9, 1], [[1, 1]], [], [["x", 5]])], []],
]

/** The client's drawing: it draws its own operations before those of the record that it learns of later. */
function transferOf(record, pending, start) {
  const next = drawingOf(start)
  const all = drawingOf([...record, ...pending])
  const transfer = new Transfer(drawingOf(record), all, pending.map(([, name]) => name), next, 9)
  return { all, next, transfer }
}

const sent = ({ groups }) => groups.flatMap(({ operations }) => operations.map(entryOf))

test("transfers by hand", LIMIT, () => {
  for (const [name, record, pending, start, operations, copies] of ROWS) {
    assert.ok(drawSame(drawingOf(record), drawingOf(start)), `${name}: the successor draws the same`)
    const { transfer } = transferOf(record, pending, start)
    assert.deepEqual([sent(transfer), transfer.copies], [operations, copies], name)
  }
})

/** The most keys of an object are used up by others meanwhile. Then its version becomes an object of its own. */
test("a transfer of too many keys", LIMIT, () => {
  const keys = manyKeys("k", LIMITS.keys)
  const parts = [0, 16, 32, 48].map((from) => keys.slice(from, from + 16))
  const seen = (place) => (place > 0 ? [[1, 1], [2, place]] : [[1, 1]])
  const record = [MADE, ...parts.map((some, place) => put([2, place + 1], seen(place), [], some))]
  const all = [["x", 0], ...keys].sort(([one], [other]) => (one < other ? -1 : 1))
  const start = [["join", 1], ["new", [1, 1], [], "rect", all.slice(0, 1)],
    ...[1, 17, 33, 49].map((from, place) => put([1, place + 2], [[1, place + 1]], [], all.slice(from, from + 16)))]
  const { transfer } = transferOf(record, [put([1, 2], [[1, 1]], [], [["one-more", 1]])], start)
  assert.deepEqual(sent(transfer).map(([word]) => word), ["new", "put", "put", "put", "put"], "the words")
  assert.deepEqual(transfer.copies, [[[1, 1], [9, 1]]], "the copy")
})

/** Long texts go into several requests, as each is one message. */
test("a transfer of long texts", LIMIT, () => {
  const texts = manyKeys("k", 16).map(([key]) => [key, "\u0001".repeat(LIMITS.textBytes)])
  const record = [MADE, put([2, 1], [[1, 1]], [], [["x", 9]])]
  const pending = [1, 2, 3, 4].map((part) =>
    put([1, part + 1], [[1, part]], [], [["x", 5], ...texts.slice(4 * part - 4, 4 * part)]))
  const start = [["join", 1], ["new", [1, 1], [], "rect", [["x", 9]]]]
  const operations = sent(transferOf(record, pending, start).transfer)
  for (const [word, [, number], ...rest] of operations) {
    assert.ok(writeText([word, number, ...rest]).length <= LIMITS.messageBytes, "it is one message")
  }
  const attributes = operations.flatMap((entry) => entry.at(-1))
  assert.deepEqual(attributes.sort(), [["x", 5], ...texts].sort(), "the attributes")
})

/** Where versions and names of the old room are in the successor. */
test("what corresponds after a transfer", LIMIT, () => {
  const [, record, pending, start] = ROWS.find(([name]) => name.startsWith("a put on the second"))
  const { all, transfer } = transferOf(record, pending, start)
  // The put makes the second version the first one.
  const [second, first] = all.versions([1, 1])
  const where = (found) => found.map(({ object, version }) => [object, version.id])
  assert.deepEqual(where([transfer.find([1, 1], first.id)]), [[[1, 1], [[1, 2]]]], "one that stays")
  assert.deepEqual(where([transfer.find([1, 1], second.id)]), [[[1, 1], [[2, 1], [9, 1]]]], "one that goes on")
  assert.equal(where(transfer.continuations([1, 1], [])).length, 2, "what contains no change")
  assert.deepEqual(where(transfer.continuations([1, 1], [[3, 1]])), [[[1, 1], [[2, 1], [9, 1]]]], "what contains one")
  assert.deepEqual(
    [transfer.find([1, 1], []), transfer.continuations([7, 7], [])], [undefined, []], "what was never there",
  )
  const [, ...moved] = ROWS.find(([name]) => name.startsWith("an object before it"))
  assert.deepEqual(transferOf(...moved).transfer.renamed, [[[1, 3], [1, 1]]], "the names")
})

/** Splits a history: a record, and operations of a site that are not in it. */
function split({ sites, operations }, draw) {
  const authors = [...new Set(operations.map(({ name: [site] }) => site))]
  const site = authors[draw(authors.length)]
  const own = operations.filter(({ name }) => name[0] === site)
  const first = Math.max(1, own.length - draw(6))
  const isLater = ({ name, seen }) => [name, ...seen].some(([one, count]) => one === site && count >= first)
  const record = operations.filter((operation) => !isLater(operation))
  const has = new Set(record.map(({ name }) => String(name)))
  const pending = own.slice(first - 1)
  const lacks = ({ seen }) => seen.some(([one, count]) => one !== site && !has.has(`${one},${count}`))
  const end = pending.findIndex(lacks)
  const joins = sites.map((_, place) => ["join", place + 1])
  return [[...joins, ...record.map(entryOf)], pending.slice(0, end < 0 ? pending.length : end).map(entryOf)]
}

/** What a drawing shows: kind and attributes of each version that is not gone, in any order. */
const shown = (drawing) => drawnObjects(drawing).flatMap(({ name, versions }) =>
  versions.map(({ attributes }) => writeText([drawing.kind(name), [...attributes]]))).sort()

/**
 * Each version that the old room would show with the pending operations is shown by the successor, and no other. The
 * program refuses none of the operations.
 */
test("transfers at random", LIMIT, () => {
  const seed = Number(process.env.SEED ?? Date.now() % 1000000)
  console.log(`transfers at random: seed ${seed}`)
  const draw = numbersFrom(seed)
  const counts = { rooms: 0, pending: 0, new: 0, put: 0, drop: 0, copies: 0, declined: 0 }
  for (let room = 0; room < HISTORIES; room++) {
    const [record, pending] = split(historyOf(room, draw), draw)
    const start = renewalOf(record)
    // A record of few changes may have no renewal that is not longer.
    if (start === null) counts.declined += 1
    else checkOne(record, pending, start, counts)
  }
  assert.ok(counts.rooms > HISTORIES / 2, "enough are renewed")
  assert.ok(counts.new > 0 && counts.put > 0 && counts.drop > 0, "each kind of operation is sent")
  return Object.entries(counts).map(([word, count]) => `${count} ${word}`).join(", ")
})

function checkOne(record, pending, start, counts) {
  assert.ok(drawSame(drawingOf(record), drawingOf(start)), "the successor draws the same")
  const site = start.filter(([word]) => word === "join").length + 1
  const all = drawingOf([...record, ...pending])
  const next = drawingOf(start)
  const transfer = new Transfer(drawingOf(record), all, pending.map(([, name]) => name), next, site)
  assert.deepEqual(shown(next), shown(all), "what is shown")
  const after = [...start, ["join", site], ...sent(transfer)]
  assert.equal(verdictOf(after.map((entry) => `${writeText(entry)}\n`).join("")), "holds", "the verdict")
  assert.deepEqual(shown(drawingOf(after)), shown(all), "what the entries draw")
  counts.rooms += 1
  counts.pending += pending.length
  counts.copies += transfer.copies.length
  for (const [word] of sent(transfer)) counts[word] += 1
}

/** A client's drawing may have got the operations in another order. The transfer is the same. */
test("a transfer from another order", LIMIT, () => {
  const [, record, pending, start, operations] = ROWS.find(([name]) => name.startsWith("a put beside another"))
  const all = new Drawing()
  const order = [...record.slice(0, 1), ...pending, ...record.slice(1)]
  for (const operation of order) all.add(operationOf(operation))
  const transfer = new Transfer(drawingOf(record), all, pending.map(([, name]) => name), drawingOf(start), 9)
  assert.deepEqual(sent(transfer), operations, "what is sent")
})
