/** Runs the tests of all files `*.test.js` in this process, one after the other. */

import { readdirSync } from "node:fs"
import { build } from "./program.js"

build()
const files = readdirSync(new URL(".", import.meta.url)).filter((name) => name.endsWith(".test.js")).sort()
for (const file of files) await import(`./${file}`)
