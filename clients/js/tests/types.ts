// A program by the types, which tsc checks and nobody runs. Each @ts-expect-error is a mistake that tsc must find.

import {
  Change, Denied, Drawing, LIMITS, Lost, ProtocolFault, Refused, Room, Version, entryOf, isSameId, operationOf,
  readText, writeText,
} from "../grace.js"
import type {
  Answer, Attributes, Entry, Json, Name, Operation, Options, RoomEvents, Socket, State, Storage, Value, VersionId,
} from "../grace.js"

const socket: Socket = {
  send: (text: string) => void text.length,
  close: () => {},
  onopen: null, onmessage: null, onclose: null, onerror: null,
}
const storage: Storage = { getItem: () => null, setItem: () => {}, removeItem: () => {} }
const options: Options = {
  connect: (address: string) => (address === "" ? socket : socket),
  pauseMilliseconds: 20, longestPauseMilliseconds: 1000, replyMilliseconds: 15000, backMilliseconds: 90000,
  retryMilliseconds: [100, 500], roomInPath: true, storage,
}
const answer: Answer = { status: 503, reason: "Service Unavailable", retryAfter: "5" }
socket.onerror?.(answer)
const room = new Room("ws://localhost:7000/", "r", options)
new Room("ws://localhost:7000/", "r", { storage: true, connect: undefined })

const states: Record<State, string> = { connecting: "", open: "", saving: "", waiting: "", closed: "" }
const endChange: () => void = room.on("change", ({ objects, renamed }) => {
  const known: Name[] = objects.filter((name) => room.has(name))
  for (const [old, now] of renamed) known.push(old, now)
})
room.on("state", ({ state, words, milliseconds }) => states[state] + words + milliseconds.toFixed())
room.on("progress", ({ have, of, isLoaded }) => isLoaded || have / of)
room.on("refusal", ({ refusal, change }) => refusal.message + refusal.word + refusal.code + change.name[0])
room.on("reset", ({ words, text }) => words + text)
room.on("renewed", ({ oldRoom, newRoom, words, copies, text }) => {
  const names: Name[] = copies.flat()
  void (oldRoom + newRoom + words + (text ?? "") + names.length + room.name + room.hasEnded)
})
room.on("notes", ({ notes }) => void notes.get(1)?.length)
room.note = `${room.note}!`
const notes: [site: number, text: string][] = [...room.notes]
const tell = (news: RoomEvents["progress"]): boolean => news.isLoaded
room.on("progress", tell)
endChange()

const made: Change = room.create("rect", { x: 0, name: "Lake", large: 2n ** 63n - 1n })
room.create("line")
room.create("line", new Map([["x", 1]]))
const pairs: Attributes = [["x", 1], ["fill", "red"]]
const put = room.put(made.object, made.version, pairs)
const next = room.set(made.object, put.version.id, "x", 5n)
const drop = room.drop(made.object, [[1, 2]])
const done: Promise<void>[] = [made.done, put.done, next.done, drop.done, room.settled()]
const release: () => void = room.hold()
release()

const site: number | null = room.site
const end: Error | null = room.fault
const looked: [State, string, boolean, boolean, { have: number; of: number }, readonly Change[], [number, number][]] =
  [room.state, room.words, room.isLoaded, room.hasNews, room.progress, room.pending, room.seen]
for (const object of room.objects()) {
  const kind: string = room.kind(object)
  for (const version of room.versions(object)) {
    const values: [string, Value][] = [...version.attributes]
    const later: Version[] = version.isGone ? [] : room.successors(object, version)
    const names: Name[] = [...version.members, ...version.outlived].filter((name) => version.has(name))
    const id: VersionId = version.id
    void [kind, values, later, names, isSameId(id, [])]
  }
}

const drawing = new Drawing()
for (const entry of room.record) {
  const operation: Operation | null = operationOf(entry)
  if (operation === null) continue
  drawing.add(operation)
  if (operation.word !== "new") drawing.check(operation)
  const kind: string | VersionId = operation.word === "new" ? operation.kind : operation.version
  const again: Entry = entryOf(operation)
  const text: string = writeText(again) + writeText(drawing.seen())
  const value: Json = readText(text)
  void [kind, value, drawing.count(1), drawing.names(), drawing.has([1, 1]), drawing.kind([1, 1])]
}
const { changes, keys }: { changes: number; keys: Set<string> } = drawing.used([1, 1])
drawing.remove(1, 1)
const fault: unknown = new Refused("gone")
if (fault instanceof Refused) void fault.word
if (fault instanceof Denied) void (fault.status === 401 && fault.reason)
if (fault instanceof Lost) void fault.pauseMilliseconds.toFixed()
if (fault instanceof Lost || fault instanceof ProtocolFault) void fault.message
const most: 256 = LIMITS.sites
void [notes, done, site, end, looked, changes, keys, most, made.isSent, made.made, made.kind, made.operation.word]
void drawing.versions([1, 1])
room.close()

// @ts-expect-error no truth values
room.create("rect", { x: true })
// @ts-expect-error no attribute is missing
room.put(made.object, made.version)
// @ts-expect-error a name has two numbers
room.drop([1], [])
// @ts-expect-error no such event
room.on("news", () => {})
// @ts-expect-error the news has no such field
room.on("progress", ({ percent }) => percent)
// @ts-expect-error no such option
new Room("ws://localhost:7000/", "r", { pause: 20 })
// @ts-expect-error no such state
const state: State = "offline"
// @ts-expect-error it can't be assigned
room.isLoaded = true
// @ts-expect-error a note is a string
room.note = 5
// @ts-expect-error it can't be assigned
room.notes = new Map()
// @ts-expect-error changes are made by a room
new Change()
// @ts-expect-error null is no value
const value: Value = null
void [state, value]
