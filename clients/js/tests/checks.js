/** Helpers of the tests. Those of the library use `node:assert`; `expect` and `expectEqual` are thin names of it. */

import assert, { AssertionError } from "node:assert/strict"
import { spawnSync } from "node:child_process"
import { inspect, isDeepStrictEqual } from "node:util"

/** The time limit of a test. */
export const LIMIT = { timeout: 180_000 }

/** Returns the option that skips a test unless this command is installed. */
export function needs(command) {
  const { error } = spawnSync(command, ["--version"], { stdio: "ignore" })
  return error?.code === "ENOENT" ? { skip: `there is no ${command}` } : {}
}

/** A check of a test failed. */
export class CheckFailed extends AssertionError {
  constructor(message) {
    super({ message })
  }
}

/** Fails the test unless both values are equal. */
export function expectEqual(what, actual, expected) {
  if (isDeepStrictEqual(actual, expected)) return
  assert.fail(`${what}: ${inspect(actual, { depth: 9 })}, not ${inspect(expected, { depth: 9 })}`)
}

/** Fails the test unless the condition holds. */
export const expect = (what, isTrue) => assert.ok(isTrue, what)

/** Returns a version in the form of a reply. */
export const shownVersion = ({ id, isGone, attributes }) => [id, isGone ? "gone" : [...attributes]]

/** Waits until the condition holds, for at most a minute. */
export async function waitUntil(what, isTrue) {
  for (const end = Date.now() + 60000; Date.now() < end; ) {
    if (isTrue()) return
    await new Promise((resolve) => setTimeout(resolve, 5))
  }
  assert.fail(`not in a minute: ${what}`)
}

/** Returns a random source of whole numbers from 0 to below a bound. The same seed gives the same numbers. */
export function numbersFrom(seed) {
  let state = seed >>> 0
  return (bound) => {
    state = (state + 0x6d2b79f5) >>> 0
    let mixed = Math.imul(state ^ (state >>> 15), state | 1)
    mixed ^= mixed + Math.imul(mixed ^ (mixed >>> 7), mixed | 61)
    return ((mixed ^ (mixed >>> 14)) >>> 0) % bound
  }
}
