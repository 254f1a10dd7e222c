/** The histories of clients/histories, which the program has made: the library shows the same. */

import assert from "node:assert/strict"
import test from "node:test"
import { readFileSync } from "node:fs"
import { Drawing, operationOf, readText } from "../grace.js"
import { LIMIT, shownVersion } from "./checks.js"

const FILE = new URL("../../histories/histories.json", import.meta.url)

/** Reads the file: one history on each line but the first and the last. The library reads no objects of JSON. */
function histories() {
  const lines = readFileSync(FILE, "utf8").split("\n").slice(1, -2)
  return lines.map((line) => {
    const [, entries, shown] = /^\{"entries":(.*),"shown":(.*)\},?$/s.exec(line)
    return { entries: readText(entries), shown: readText(shown) }
  })
}

test("histories of the folder", LIMIT, (t) => {
  const all = histories()
  let compared = 0
  for (const [number, { entries, shown }] of all.entries()) {
    const drawing = new Drawing()
    let count = 0
    for (const [at, object, kind, versions] of shown) {
      for (; count < at; count++) {
        const operation = operationOf(entries[count])
        if (operation !== null) drawing.add(operation)
      }
      const what = `history ${number}, object ${object} after ${at} entries`
      assert.deepEqual([drawing.kind(object), drawing.versions(object).map(shownVersion)], [kind, versions], what)
      compared += 1
    }
    assert.equal(count, entries.length, `the entries of history ${number}`)
  }
  assert.equal(all.length, 200, "how many there are")
  t.diagnostic(`${compared} objects`)
})
