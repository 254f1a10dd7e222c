/**
 * A client of GRACE drawing rooms, for browsers and node. `Room` joins a room, shows its objects, changes them, and
 * reconnects. `Drawing` computes the versions of objects from operations alone.
 *
 *     import { Room } from "./grace.js"
 *     const room = new Room("ws://localhost:7000/", "r")
 *     room.on("change", ({ objects }) => objects.filter((name) => room.has(name)).forEach((name) =>
 *       console.log(name, room.kind(name), room.versions(name))))
 *     const end = room.on("state", ({ state, words }) => {
 *       if (state !== "open") return console.log(words)
 *       end()
 *       const { object, version } = room.create("rect", { x: 0 })
 *       room.put(object, version, { x: 5, y: 7 })
 *     })
 *
 * A value is a string or a 64-bit integer. An integer from -(2^53 - 1) to 2^53 - 1 is a `Number`; beyond that it is a
 * `BigInt`. An object takes 1,024 changes and 64 keys, and has at most 32 versions; `LIMITS` has all limits.
 *
 * Each join uses up one of the room's 256 sites for good. After a lost connection the client rejoins as the same site.
 * With the option `storage` a reloaded page does so too.
 */

import { Lost } from "./connection.js"
import { Change } from "./change.js"
import { Drawing, Version } from "./drawing.js"
import { Denied, GraceError, LIMITS, ProtocolFault, Refused, entryOf, isSameId, operationOf } from "./forms.js"
import { readText, writeText } from "./json_text.js"
import { Room } from "./room.js"
import { UndoManager } from "./undo.js"

export {
  Change, Denied, Drawing, GraceError, LIMITS, Lost, ProtocolFault, Refused, Room, UndoManager, Version, entryOf,
  isSameId, operationOf, readText, writeText,
}
