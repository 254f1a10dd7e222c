/** Integers of 64 bits, and texts: parsing, writing, and replies of the program. */

import assert from "node:assert/strict"
import test from "node:test"
import { Drawing, operationOf, readText, writeText } from "../grace.js"
import { asAttributes, asId, asKind, asName, asPairs, asRoomName, asValue } from "../arguments.js"
import { LIMIT } from "./checks.js"
import { script } from "./program.js"

const EXACT = 9007199254740991n
// Texts of numbers, and their values.
const NUMBERS = [
  ["0", 0], ["-1", -1], ["9007199254740991", 9007199254740991], ["-9007199254740991", -9007199254740991],
  ["9007199254740992", EXACT + 1n], ["9007199254740993", EXACT + 2n], ["-9007199254740993", -EXACT - 2n],
  ["9223372036854775807", 2n ** 63n - 1n], ["-9223372036854775808", -(2n ** 63n)],
]

test("numbers of 64 bits", LIMIT, () => {
  for (const [text, value] of NUMBERS) {
    assert.deepEqual(readText(text), value, `the value of ${text}`)
    assert.deepEqual(writeText(value), text, `the text of ${text}`)
    assert.deepEqual(asValue(BigInt(text), "x"), value, `${text} as a value`)
  }
  assert.deepEqual([writeText(-0), Object.is(asValue(-0, "x"), 0)], ["0", true], "a zero below zero")
})

test("texts of messages", LIMIT, () => {
  assert.deepEqual(readText(' [ "set" , [ [1,2] ] , [] , -5 ] '), ["set", [[1, 2]], [], -5], "lists")
  const letters = '"\\\b\f\n\r\t\u0001 é€😀'
  assert.deepEqual(readText(writeText([letters])), [letters], "letters")
  assert.equal(readText('"\\u00e9\\u20AC\\ud83d\\ude00\\/\\u0041"'), "é€😀/A", "escapes")
  assert.equal(readText(JSON.stringify("\\".repeat(100000))).length, 100000, "a long text")
  const both = ["1.5 -0 {null}", '"', EXACT + 2n, -7]
  assert.deepEqual(readText('["1.5 -0 {null}","\\"",9007199254740993,-7]'), both, "strings with numbers")
  const none = [
    "", "1.0", "1e0", "-0", "01", "+1", "[1,]", "[,1]", "[1 2]", "[1", "1]", "[1]]", "{}", "null", "true", '"', '"\n"',
    "'a'", "1 2", '["a",-0]', '["a",1.5]', '"a"1', "[1,\u00a02]", '"\\x"', "[".repeat(128) + "]".repeat(128),
  ]
  for (const text of none) assert.throws(() => readText(text), { name: "SyntaxError" }, `the text ${text.slice(0, 20)}`)
  assert.ok(Array.isArray(readText("[".repeat(127) + "]".repeat(127))), "127 lists in each other")
})

// The attributes, the error's name, and its message: the key and the reason.
const OUTSIDE = "is outside the 64-bit range from -2^63 to 2^63 - 1"
const LONG = "é".repeat(129)
const NONE = [
  [{ x: 0.5 }, "RangeError", "x: 0.5 is not an integer"],
  [{ x: NaN }, "RangeError", "x: NaN is not an integer"],
  [{ x: Infinity }, "RangeError", "x: Infinity is not an integer"],
  [{ x: 2 ** 53 }, "RangeError", "x: 9007199254740992 may be rounded; use a BigInt beyond 2^53 - 1"],
  [{ x: 2n ** 63n }, "RangeError", `x: 9223372036854775808 ${OUTSIDE}`],
  [{ x: -(2n ** 63n) - 1n }, "RangeError", `x: -9223372036854775809 ${OUTSIDE}`],
  [{ x: 1e300 }, "RangeError", `x: 1e+300 ${OUTSIDE}`],
  [{ name: LONG }, "RangeError", "name: the string has 258 bytes in UTF-8; the limit is 256"],
  [{ name: "ab\ud83dc" }, "TypeError", "name: the string has an unpaired surrogate at index 2"],
  [{ x: null }, "TypeError", "x: a value must be an integer or a string, not null"],
  [{ x: undefined }, "TypeError", "x: a value must be an integer or a string, not undefined"],
  [{ x: true }, "TypeError", "x: a value must be an integer or a string, not true"],
  [{ x: [1] }, "TypeError", "x: a value must be an integer or a string, not object"],
  [{ Fill: 1 }, "TypeError", 'the key "Fill" isn\'t 1 to 32 of a-z, 0-9 and -'],
  [{ "": 1 }, "TypeError", 'the key "" isn\'t 1 to 32 of a-z, 0-9 and -'],
  [{ [`k${"0".repeat(32)}`]: 1 }, "TypeError", `the key "k${"0".repeat(32)}" isn't 1 to 32 of a-z, 0-9 and -`],
  [[["x", 1], ["y", 1], ["x", 1]], "TypeError", "x: the key appears twice"],
  [Array.from({ length: 17 }, (_, key) => [`k${key}`, 1]), "RangeError", "17 attributes; the limit is 16"],
  [[["x"]], "TypeError", "an attribute must be a pair of a key and a value, not object"],
  [null, "TypeError", "attributes must be an object, or pairs of a key and a value, not null"],
  ["x", "TypeError", 'attributes must be an object, or pairs of a key and a value, not "x"'],
  [{}, "RangeError", "a put needs at least one attribute"],
]

test("values", LIMIT, () => {
  for (const [attributes, name, message] of NONE) {
    assert.throws(() => asPairs(attributes), { name, message })
  }
  for (const [call, message] of [
    [() => asKind("a b"), 'the kind "a b" isn\'t 1 to 32 of a-z, 0-9 and -'],
    [() => asKind(7), "the kind 7 isn't 1 to 32 of a-z, 0-9 and -"],
    [() => asRoomName("R"), 'the room\'s name "R" isn\'t 1 to 64 of a-z, 0-9 and -'],
    [() => asName("1,1"), "the object must be a name such as [1, 2]"],
    [() => asId(undefined), "the version must be a Version or its identifier"],
    [() => asId([1, 2]), "the version must be a Version or its identifier"],
  ]) assert.throws(call, { name: "TypeError", message })
  assert.deepEqual(asValue("é".repeat(128), "x"), "é".repeat(128), "a text of 256 bytes")
  assert.deepEqual(
    [asAttributes({}), asAttributes(new Map([["x", 1]]))], [[], [["x", 1]]], "no attributes of a new object",
  )
  assert.throws(() => writeText([0.5]), { name: "RangeError" }, "a number that is not exact")
})

/** Numbers that are equal as a `Number` stay distinct when sent, shown and compared. */
test("numbers beyond 2^53 by the program", LIMIT, async () => {
  const replies = await script(["r"], [
    '1 ["join","r"]', '2 ["join","r"]', `1 ${writeText(["new", 1, [], "n", [["x", -(2n ** 63n)]]])}`,
    `1 ${writeText(["put", 2, [[1, 1]], [1, 1], [], [["x", EXACT + 1n]]])}`,
    `2 ${writeText(["put", 1, [[1, 1]], [1, 1], [], [["x", EXACT + 2n]]])}`, '1 ["pull",0]', '1 ["show",[1,1]]',
  ])
  const [, , , entries] = readText(replies[5].slice(2))
  const drawing = new Drawing()
  for (const entry of entries.slice(2)) drawing.add(operationOf(entry))
  const versions = drawing.versions([1, 1]).map(({ id, attributes }) => [id, [...attributes]])
  assert.deepEqual(versions, [[[[1, 2]], [["x", EXACT + 1n]]], [[[2, 1]], [["x", EXACT + 2n]]]], "the versions")
  assert.equal(replies[6], `1 ${writeText(["versions", 5, [1, 1], "n", versions])}`, "the program's")
})
