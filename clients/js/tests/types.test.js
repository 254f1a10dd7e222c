/**
 * The types: tsc accepts a program by them, they declare the whole interface of the library, and its own code agrees
 * with its comments.
 */

import assert from "node:assert/strict"
import test from "node:test"
import { spawnSync } from "node:child_process"
import { readFileSync } from "node:fs"
import { fileURLToPath } from "node:url"
import * as grace from "../grace.js"
import { withDefaults } from "../options.js"
import { LIMIT, needs } from "./checks.js"

const WORDS = [
  "--noEmit", "--strict", "--noUnusedLocals", "--target", "es2020", "--module", "es2020", "--moduleResolution", "node",
]
// Methods that only the library calls.
const INTERNAL = ["become", "moveTo"]
const fileOf = (name) => fileURLToPath(new URL(name, import.meta.url))

function check(...words) {
  const { status, stdout } = spawnSync("tsc", [...WORDS, ...words], { encoding: "utf8" })
  assert.equal(status, 0, stdout)
}

/** Checks a program for node and one for browsers. */
test("types by tsc", { ...LIMIT, ...needs("tsc") }, () => {
  check("--lib", "es2020", "--exactOptionalPropertyTypes", fileOf("types.ts"))
  check("--lib", "es2020,dom", fileOf("types.ts"), fileOf("types_browser.ts"))
})

/** The library's own code agrees with its comments. */
test("types of the library's own code", { ...LIMIT, ...needs("tsc") }, () => {
  check("--allowJs", "--checkJs", "--strict", "false", "--target", "es2022", "--lib", "es2022,dom",
    fileOf("../grace.js"), fileOf("array_methods.d.ts"))
})

const blockOf = (text, head) => text.split(`export ${head} {\n`)[1].split("\n}")[0]
const namesIn = (text, pattern) => [...text.matchAll(pattern)].map(([, name]) => name).sort()

/** The library exports what the types declare, and its classes have the declared methods. */
test("types name all", LIMIT, () => {
  const text = readFileSync(fileOf("../grace.d.ts"), "utf8")
  assert.deepEqual(
    namesIn(text, /^export (?:class|const|function) (\w+)/gm), Object.keys(grace).sort(), "what is exported",
  )
  for (const [, name, body] of text.matchAll(/^export class (\w+) [^\n]*\{\n(.*?)^\}/gms)) {
    const methods = new Set(namesIn(body, /^ {2}(?:get )?(\w+)(?:<.*>)?\(/gm))
    methods.delete("private")
    const own = Object.getOwnPropertyNames(grace[name].prototype).filter((method) => !INTERNAL.includes(method))
    assert.deepEqual([...methods.add("constructor")].sort(), own.sort(), `the methods of ${name}`)
  }
  const options = namesIn(blockOf(text, "interface Options"), /^ {2}(\w+)\?:/gm)
  assert.deepEqual(options, Object.keys(withDefaults({})).sort(), "the options")
  const limits = namesIn(blockOf(text, "const LIMITS:"), /readonly (\w+): /g)
  assert.deepEqual(limits, Object.keys(grace.LIMITS).sort(), "the limits")
})
