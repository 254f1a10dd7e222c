/**
 * Two people draw on the page behind a proxy with TLS and passwords: `behind_proxy.mjs HOST PORT USER PASSWORD`. The
 * browser resolves HOST to this machine at PORT, and accepts the certificate, which no authority signed.
 * tests/behind_nginx starts the proxy.
 */

import { join } from "node:path"
import { mkdir } from "node:fs/promises"
import { expect, expectEqual } from "../../../clients/js/tests/checks.js"
import { Chromium } from "./chromium.mjs"
import { BODIES, COUNT, PICTURES, draw, isOpen } from "./people.mjs"

const [, , host, port, user, password] = process.argv

async function twoDraw(browser) {
  const first = await browser.open(`https://${user}:${encodeURIComponent(password)}@${host}/`, 1024, 700)
  await isOpen(first)
  expect("the page's address", (await first.look("location.href")).endsWith(`${host}/examples/whiteboard/?room=studio`))
  const second = await browser.open(`https://${host}/`, 1600, 1000)
  await isOpen(second)
  await draw(first, "rect", [180, 180], [420, 340])
  await second.waitUntil("the rectangle", `${COUNT} === 1`)
  await draw(second, "ellipse", [700, 130], [900, 290])
  await first.waitUntil("the ellipse", `${COUNT} === 2`)
  expectEqual("what both show", await first.look(BODIES), await second.look(BODIES))
  expectEqual("faults in the pages", [...first.faults, ...second.faults], [])
  await second.picture(join(PICTURES, "behind-proxy.png"))
}

await mkdir(PICTURES, { recursive: true })
const browser = await Chromium.start(`--host-resolver-rules=MAP ${host} 127.0.0.1:${port}`,
  "--ignore-certificate-errors")
let status = 0
try {
  await twoDraw(browser)
  console.log("two people drew on the page in a browser")
} catch (fault) {
  console.log(fault.stack)
  status = 1
} finally {
  await browser.end()
}
process.exit(status)
