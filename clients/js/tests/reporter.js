/** A reporter for `node --test-reporter`: a line for each test, and at the end 'N passed, M failed'. */

import { inspect } from "node:util"

// What node 18 and 20 give as the reason of each test that `--test-name-pattern` leaves out.
const LEFT_OUT = "test name does not match pattern"

/** Returns why a test failed. Of an assertion with a message of its own, node 18 tells the values nowhere else. */
function reasonOf({ error }) {
  const fault = error.cause ?? error
  if (fault.code !== "ERR_ASSERTION") return inspect(fault)
  const [actual, expected] = [fault.actual, fault.expected].map((value) => inspect(value, { depth: 9 }))
  return `${fault.stack}\n    actual: ${actual}\n    expected: ${expected}`
}

const secondsOf = ({ details }) => `${(details.duration_ms / 1000).toFixed(1)} s`

/** Returns the line of an event, or nothing if it is about no test. */
function lineOf({ type, data }) {
  if (type === "test:diagnostic" && data.file !== undefined) return `    ${data.message}\n`
  if (type === "test:fail") return `failed: ${data.name} (${secondsOf(data)}): ${reasonOf(data.details)}\n`
  if (type !== "test:pass" || data.skip === LEFT_OUT) return ""
  return data.skip === undefined
    ? `passed: ${data.name} (${secondsOf(data)})\n`
    : `skipped: ${data.name}: ${data.skip}\n`
}

export default async function* report(events) {
  let [passed, failed] = [0, 0]
  for await (const event of events) {
    passed += event.type === "test:pass" && event.data.skip === undefined
    failed += event.type === "test:fail"
    yield lineOf(event)
  }
  if (passed === 0) process.exitCode = 1
  yield `${passed} passed, ${failed} failed\n`
}
