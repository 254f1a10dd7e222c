/** The package: it is packed, installed from its file, and imported by its name. */

import assert from "node:assert/strict"
import test from "node:test"
import { spawnSync } from "node:child_process"
import { mkdtempSync, readdirSync, rmSync, writeFileSync } from "node:fs"
import { tmpdir } from "node:os"
import { join } from "node:path"
import { fileURLToPath } from "node:url"
import * as grace from "../grace.js"
import { LIMIT, needs, waitUntil } from "./checks.js"
import { withServer } from "./rooms.js"
import { WebSocket } from "./websocket.js"

const LIBRARY = fileURLToPath(new URL("..", import.meta.url))

/** Runs a command in a folder. Returns what it prints. */
function run(folder, command, ...words) {
  const { status, stdout, stderr } = spawnSync(command, words, { cwd: folder, encoding: "utf8" })
  assert.equal(status, 0, `${command} ${words.join(" ")}: ${stderr}`)
  return stdout
}

test("a package that is installed", { ...LIMIT, ...needs("npm") }, () => {
  const folder = mkdtempSync(join(tmpdir(), "package-"))
  try {
    run(LIBRARY, "npm", "pack", "--silent", "--pack-destination", folder)
    const [file] = readdirSync(folder)
    writeFileSync(join(folder, "package.json"), '{"private":true,"type":"module"}')
    run(folder, "npm", "install", "--silent", "--offline", "--no-audit", "--no-fund", `./${file}`)
    const content = readdirSync(join(folder, "node_modules/grace-client")).sort()
    const files = readdirSync(LIBRARY).filter((name) => !["test", "tests"].includes(name)).sort()
    assert.deepEqual(content, files, "the files of the package")
    writeFileSync(join(folder, "program.js"), `import * as grace from "grace-client"
      const drawing = new grace.Drawing()
      drawing.add({ word: "new", name: [1, 1], seen: [], object: [1, 1], kind: "rect", attributes: [["x", 1]] })
      console.log(JSON.stringify([Object.keys(grace).sort(), [...drawing.versions([1, 1])[0].attributes]]))`)
    const printed = JSON.parse(run(folder, "node", "program.js"))
    assert.deepEqual(printed, [Object.keys(grace).sort(), [["x", 1]]], "what the package gives")
  } finally {
    rmSync(folder, { recursive: true })
  }
})

/** Each error of the library is a `GraceError`. So is the one that closes a room. */
test("one class of errors", LIMIT, withServer(async (client, server) => {
  const { Denied, GraceError, Lost, ProtocolFault, Refused, Room } = grace
  const bases = [Denied, Lost, ProtocolFault, Refused].map(({ prototype }) => prototype instanceof GraceError)
  assert.deepEqual(bases, [true, true, true, true], "which are")
  const room = new Room(`ws://${server.address}/`, "other", { connect: (address) => new WebSocket(address) })
  await waitUntil("the end", () => room.state === "closed")
  assert.deepEqual([room.fault instanceof GraceError, room.fault.name], [true, "Refused"], "the error")
}))
