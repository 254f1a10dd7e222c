/** Worked examples: changes of one object and its versions after them, by the library and by the program. */

import assert from "node:assert/strict"
import test from "node:test"
import { Drawing, entryOf, operationOf, writeText } from "../grace.js"
import { requestOf } from "../forms.js"
import { LIMIT, shownVersion } from "./checks.js"
import { script } from "./program.js"

const MADE = [[1, 1]]
const X5 = [[1, 2], MADE, [], { x: 5 }]
const X9 = [[2, 1], MADE, [], { x: 9 }]
const BOTH = [[1, 2], [2, 1]]
const DROP = null
const FIVE = [
  [[1, 2], MADE, [], { x: 1 }], [[2, 1], MADE, [], { y: 2 }], [[3, 1], MADE, [], { x: 7 }], [[4, 1], MADE, [], { y: 8 }],
  [[5, 1], MADE, [], { x: 9 }],
]

// A name; the attributes of object (1,1); the changes, each with its name, state vector, version, and attributes or
// DROP; and the versions after them, each with its identifier and its attributes or "gone".
const ROWS = [
  ["a new object", [["x", 0]], [], [[[], { x: 0 }]]],
  ["one put", [["x", 0]], [X5], [[[], { x: 5 }]]],
  ["two that conflict", [["x", 0]], [X5, X9], [[[[1, 2]], { x: 5 }], [[[2, 1]], { x: 9 }]]],
  ["one in both versions", [["x", 0]], [X5, X9, [[3, 1], MADE, [], { fill: "red" }]],
    [[[[1, 2]], { fill: "red", x: 5 }], [[[2, 1]], { fill: "red", x: 9 }]]],
  ["a conflict is inherited", [["x", 0]],
    [X5, X9, [[1, 3], BOTH, [[1, 2]], { fill: "red" }], [[2, 2], BOTH, [[2, 1]], { line: 3 }]],
    [[[[1, 2], [1, 3]], { fill: "red", x: 5 }], [[[2, 1], [2, 2]], { line: 3, x: 9 }]]],
  ["the same value", [["x", 0]], [X5, [[2, 1], MADE, [], { x: 5 }]], [[[], { x: 5 }]]],
  ["a number and a text", [], [X5, [[2, 1], MADE, [], { x: "5" }]], [[[[1, 2]], { x: 5 }], [[[2, 1]], { x: "5" }]]],
  ["a value that was replaced", [["x", 0]], [X5, [[1, 3], [[1, 2]], [], { x: 6 }], [[2, 1], MADE, [], { x: 5 }]],
    [[[[1, 3]], { x: 6 }], [[[2, 1]], { x: 5 }]]],
  ["a base in one version", [["x", 0]], [X5, X9, [[3, 1], [[1, 2]], [], { fill: "red" }]],
    [[[[1, 2], [3, 1]], { fill: "red", x: 5 }], [[[2, 1]], { x: 9 }]]],
  ["a conflict with a base", [["x", 0]], [X5, [[1, 3], [[1, 2]], [], { fill: "red" }], X9],
    [[[[1, 2], [1, 3]], { fill: "red", x: 5 }], [[[2, 1]], { x: 9 }]]],
  ["one that goes on", [["x", 0]], [X5, X9, [[2, 2], [[1, 1], [2, 1]], [], { line: 3 }]],
    [[[[1, 2]], { x: 5 }], [[[2, 1], [2, 2]], { line: 3, x: 9 }]]],
  ["three of five", [], FIVE.slice(0, 3), [[[[1, 2]], { x: 1, y: 2 }], [[[3, 1]], { x: 7, y: 2 }]]],
  ["four of five", [], FIVE.slice(0, 4), [
    [[[1, 2], [2, 1]], { x: 1, y: 2 }], [[[1, 2], [4, 1]], { x: 1, y: 8 }], [[[2, 1], [3, 1]], { x: 7, y: 2 }],
    [[[3, 1], [4, 1]], { x: 7, y: 8 }],
  ]],
  ["five of five", [], FIVE, [
    [[[1, 2], [2, 1]], { x: 1, y: 2 }], [[[1, 2], [4, 1]], { x: 1, y: 8 }], [[[2, 1], [3, 1]], { x: 7, y: 2 }],
    [[[2, 1], [5, 1]], { x: 9, y: 2 }], [[[3, 1], [4, 1]], { x: 7, y: 8 }], [[[4, 1], [5, 1]], { x: 9, y: 8 }],
  ]],
  ["two keys beside the same value", [["x", 0]], [X5, [[2, 1], MADE, [], { x: 5, fill: "red" }]], [[[], { fill: "red", x: 5 }]]],
  ["two keys, one of them another value", [["x", 0]], [X5, [[2, 1], MADE, [], { fill: "red", x: 9 }]],
    [[[[1, 2]], { x: 5 }], [[[2, 1]], { fill: "red", x: 9 }]]],
  ["a dropped version", [["x", 0]], [X5, [[2, 1], [[1, 2]], [], DROP]], [[[], "gone"]]],
  ["a put beside a drop", [["x", 0]], [X5, [[2, 1], [[1, 2]], [], DROP], [[1, 3], [[1, 2]], [], { x: 6 }]],
    [[[[1, 3]], { x: 6 }], [[[2, 1]], "gone"]]],
  ["two drops of one version", [["x", 0]], [X5, [[2, 1], [[1, 2]], [], DROP], [[3, 1], [[1, 2]], [], DROP]], [[[], "gone"]]],
  ["one of two dropped", [["x", 0]], [X5, X9, [[1, 3], BOTH, [[2, 1]], DROP]],
    [[[[1, 2]], { x: 5 }], [[[1, 3], [2, 1]], "gone"]]],
]

const creationOf = (attributes) => operationOf(["new", [1, 1], [], "rect", attributes])
const changeOf = ([name, seen, version, attributes]) =>
  operationOf(attributes === DROP
    ? ["drop", name, seen, [1, 1], version]
    : ["put", name, seen, [1, 1], version, Object.entries(attributes)])
const shownBy = (drawing) => drawing.versions([1, 1]).map(shownVersion)
const shownOf = (versions) => versions.map(([id, shown]) => [id, shown === "gone" ? shown : Object.entries(shown)])

test("worked examples", LIMIT, () => {
  for (const [name, attributes, changes, versions] of ROWS) {
    const drawing = new Drawing()
    drawing.add(creationOf(attributes))
    for (const change of changes) drawing.add(changeOf(change))
    assert.deepEqual(shownBy(drawing), shownOf(versions), name)
  }
})

/** Returns the lines of an example for sessions 1 to 5, and the reply to the last. */
function linesOf([, attributes, changes, versions], room) {
  const sites = [1, 2, 3, 4, 5].slice(0, Math.max(1, ...changes.map(([[site]]) => site)))
  const session = (site) => room * 5 + site
  const lines = sites.map((site) => `${session(site)} ["join","r${room}"]`)
  lines.push(`${session(1)} ${writeText(["new", 1, [], "rect", attributes])}`)
  for (const change of changes.map(changeOf)) lines.push(`${session(change.name[0])} ${requestOf(change)}`)
  const reply = ["versions", lines.length, [1, 1], "rect", shownOf(versions)]
  return [[...lines, `${session(1)} ["show",[1,1]]`], `${session(1)} ${writeText(reply)}`]
}

test("worked examples by the program", LIMIT, async () => {
  const rows = ROWS.map(linesOf)
  const replies = await script(rows.map((_, room) => `r${room}`), rows.flatMap(([lines]) => lines))
  let end = 0
  rows.forEach(([lines, reply], row) => {
    end += lines.length
    assert.deepEqual(replies[end - 1], reply, `${ROWS[row][0]}, by the program`)
  })
})

/** The library refuses changes that are not admissible. Refusals change nothing. */
test("what is not admitted", LIMIT, () => {
  const drawing = new Drawing()
  drawing.add(creationOf([["x", 0]]))
  drawing.add(changeOf(X5))
  drawing.add(changeOf(X9))
  const shown = shownBy(drawing)
  const add = (change) => () => drawing.add(changeOf(change))
  assert.throws(
    add([[2, 2], BOTH, [], { line: 3 }]), { name: "Refused", word: "no-such-version" }, "no version of this name",
  )
  assert.throws(
    add([[3, 1], [[1, 2]], [[1, 2]], { x: 1 }]),
    { name: "Refused", word: "no-such-version" },
    "one that is not in dispute",
  )
  assert.throws(
    add([[3, 1], BOTH, BOTH, { x: 1 }]), { name: "Refused", word: "no-such-version" }, "both of two that conflict",
  )
  assert.throws(
    add([[3, 1], MADE, [[2, 1]], { x: 1 }]), { name: "Refused", word: "no-such-version" }, "an unknown change",
  )
  assert.throws(
    add([[3, 1], [], [], { x: 1 }]), { name: "Refused", word: "no-such-object" }, "one that has not seen the object",
  )
  assert.throws(add([[1, 2], MADE, [], { x: 1 }]), { name: "ProtocolFault" }, "a wrong number")
  assert.throws(add([[3, 1], [[1, 3]], [], { x: 1 }]), { name: "ProtocolFault" }, "one that counts a missing operation")
  assert.throws(() => drawing.versions([3, 3]), { name: "Refused", word: "no-such-object" }, "no such object")
  assert.deepEqual(shownBy(drawing), shown, "the versions afterwards")
  drawing.add(changeOf([[2, 2], BOTH, [[2, 1]], DROP]))
  assert.throws(
    add([[3, 1], [[1, 2], [2, 2]], [[2, 1], [2, 2]], { x: 1 }]), { name: "Refused", word: "gone" }, "one that is gone",
  )
})

/** The same operations in another order produce the same versions. */
test("another order", LIMIT, () => {
  const [, attributes, changes, versions] = ROWS.find(([name]) => name === "five of five")
  for (const order of [[4, 3, 2, 1, 0], [2, 0, 4, 1, 3], [1, 3, 0, 2, 4]]) {
    const drawing = new Drawing()
    drawing.add(creationOf(attributes))
    for (const place of order) drawing.add(changeOf(changes[place]))
    assert.deepEqual(shownBy(drawing), shownOf(versions), `in the order ${order}`)
  }
})

/** A version outlives a drop whose author deleted it in an earlier state, and no other drop. */
test("what outlived a drop", LIMIT, () => {
  const cases = [
    ["changed in the meantime", [X5, [[2, 1], [[1, 2]], [], DROP], [[1, 3], [[1, 2]], [], { x: 6 }]], [[[2, 1]], []]],
    ["changed from an older one", [X5, [[2, 1], [[1, 2]], [], DROP], [[3, 1], MADE, [], { x: 6 }]], [[], [[2, 1]]]],
    ["before any change", [[[2, 1], MADE, [], DROP], X5], [[[2, 1]], []]],
    ["one of two that were seen", [X5, X9, [[1, 3], BOTH, [[1, 2]], DROP]], [[], []]],
    ["one of two, and the other changed in the meantime",
      [X5, X9, [[1, 3], BOTH, [[1, 2]], DROP], [[2, 2], BOTH, [[2, 1]], { line: 3 }]], [[], []]],
    ["one of two, which was changed in the meantime",
      [X5, X9, [[2, 2], BOTH, [[1, 2]], DROP], [[1, 3], BOTH, [[1, 2]], { line: 3 }]], [[[2, 2]], [], []]],
    ["changed on by one who had seen the drop", [X5, [[2, 1], [[1, 2]], [], DROP], [[1, 3], [[1, 2]], [], { x: 6 }],
      [[3, 1], [[1, 3], [2, 1]], [[1, 3]], { line: 3 }]], [[[2, 1]], []]],
    ["two drops of one version", [X5, [[1, 3], [[1, 2]], [], DROP], [[2, 1], [[1, 2]], [], DROP]], [[]]],
  ]
  for (const [name, changes, expected] of cases) {
    const drawing = new Drawing()
    drawing.add(creationOf([["x", 0]]))
    for (const change of changes) drawing.add(changeOf(change))
    assert.deepEqual(drawing.versions([1, 1]).map((version) => version.outlived), expected, name)
  }
})

/** The library reads the old form of one attribute as a put, and writes it in its own form. */
test("the old form", LIMIT, () => {
  const put = operationOf(["set", [1, 2], MADE, [1, 1], [], "x", 5])
  assert.deepEqual(put, changeOf(X5), "read")
  assert.deepEqual(entryOf(put), ["put", [1, 2], MADE, [1, 1], [], [["x", 5]]], "written")
})
