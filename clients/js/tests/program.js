/** The program under test: the one that the variable GRACE names, or the repository's own. */

import { spawn, spawnSync } from "node:child_process"
import { mkdtempSync, rmSync, writeFileSync } from "node:fs"
import { createServer } from "node:net"
import { tmpdir } from "node:os"
import { join, resolve } from "node:path"
import { fileURLToPath } from "node:url"
import { readText, writeText } from "../grace.js"

const ROOT = fileURLToPath(new URL("../../..", import.meta.url))
const PROGRAM = process.env.GRACE ? resolve(process.env.GRACE) : resolve(ROOT, "grace")

/** Builds the repository's own program if it is not current. That takes long, and shows its progress. */
export function build() {
  const { status, error } = spawnSync(PROGRAM, ["--version"], { stdio: ["ignore", "ignore", "inherit"] })
  if (status !== 0) throw new Error(`${PROGRAM} does not run: ${error?.message ?? `status ${status}`}`)
}

/** Returns a port on which nothing listens. */
export function freePort() {
  return new Promise((tell, fail) => {
    const probe = createServer()
    probe.on("error", fail)
    probe.listen(0, "127.0.0.1", () => {
      const { port } = probe.address()
      probe.close(() => tell(port))
    })
  })
}

/** Returns the answers of `grace script` to these lines. */
export function script(rooms, lines) {
  const program = spawn(PROGRAM, ["script", ...rooms], { stdio: ["pipe", "pipe", "inherit"] })
  const pieces = []
  program.stdout.on("data", (piece) => pieces.push(piece))
  return new Promise((tell, fail) => {
    program.on("error", fail)
    program.stdin.on("error", fail)
    program.on("close", (status) => {
      if (status !== 0) return fail(new Error(`grace script exited with status ${status}`))
      tell(Buffer.concat(pieces).toString().split("\n").slice(0, -1))
    })
    program.stdin.end(lines.map((line) => `${line}\n`).join(""))
  })
}

/** Runs a command of the program on a record's text. */
function runOn(record, word, ...rest) {
  const folder = mkdtempSync(join(tmpdir(), "record-"))
  try {
    const file = join(folder, "record")
    writeFileSync(file, record)
    return spawnSync(PROGRAM, [word, file, ...rest], { encoding: "utf8" })
  } finally {
    rmSync(folder, { recursive: true })
  }
}

/** Returns the verdict of `grace check` on a record's text. */
export const verdictOf = (record) => runOn(record, "check", "/dev/null").stdout.trim()

/** Returns the entries of the renewal of a record by `grace renew`, or null if it finds none. */
export function renewalOf(entries) {
  const { status, stdout } = runOn(entries.map((entry) => `${writeText(entry)}\n`).join(""), "renew")
  return status === 0 ? stdout.split("\n").slice(0, -1).map(readText) : null
}

/** `grace serve` on a free port, with further options. `rooms` are those of the command line. `end` kills it. */
export class Server {
  rooms = ["r"]

  static async start(sessions = 1000, ...options) {
    const server = new Server()
    server.options = options
    server.port = await freePort()
    await server.listen(sessions)
    return server
  }

  /** Starts the program on the port. */
  listen(sessions) {
    this.address = `127.0.0.1:${this.port}`
    const words = ["serve", ...this.options, this.address, `${sessions}`, "64", ...this.rooms]
    this.program = spawn(PROGRAM, words, { stdio: ["ignore", "pipe", "ignore"] })
    this.closed = new Promise((tell) => this.program.on("close", tell))
    return new Promise((tell, fail) => {
      this.program.on("error", fail)
      this.closed.then(() => fail(new Error("grace serve does not listen")))
      this.program.stdout.once("data", tell)
    })
  }

  /** Kills the program. */
  async end() {
    this.program.kill("SIGKILL")
    await this.closed
  }
}
