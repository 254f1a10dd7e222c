/** Types of the client library. `grace.js` and the files beside it document the behaviour in full. */

/** Site and number of an operation. An object has the name of its creation. */
export type Name = [site: number, number: number]
/** The identifier of a version: names in ascending order. A put or a drop names its base by it. */
export type VersionId = Name[]
/**
 * A 64-bit integer, or a string of at most 256 bytes in UTF-8. An integer is a `number` if that is exact, otherwise a
 * `bigint`.
 */
export type Value = number | bigint | string
export type Attribute = [key: string, value: Value]
/** Attributes as arguments: `{ x: 5 }`, a `Map`, or pairs of a key and a value. */
export type Attributes =
  | Readonly<Record<string, Value>>
  | readonly (readonly [string, Value])[]
  | Iterable<readonly [string, Value]>
/** A state vector: for each site how many of its operations the author had seen. */
export type Seen = [site: number, count: number][]

export interface Creation {
  word: "new"
  name: Name
  seen: Seen
  /** The same as `name`. */
  object: Name
  kind: string
  attributes: Attribute[]
}

export interface Put {
  word: "put"
  name: Name
  seen: Seen
  object: Name
  version: VersionId
  attributes: Attribute[]
}

export interface Drop {
  word: "drop"
  name: Name
  seen: Seen
  object: Name
  version: VersionId
}

export type Operation = Creation | Put | Drop

/**
 * An entry of the record. `set` is an old form of a put with one attribute; the library reads it but never writes it.
 */
export type Entry =
  | ["join", number]
  | ["new", Name, Seen, string, Attribute[]]
  | ["put", Name, Seen, Name, VersionId, Attribute[]]
  | ["drop", Name, Seen, Name, VersionId]
  | ["set", Name, Seen, Name, VersionId, string, Value]
  | ["next", number]

/** A value that `readText` returns and `writeText` accepts. All messages have this form. */
export type Json = Value | Json[]

/** The largest number or size of each, as the server enforces it. */
export const LIMITS: {
  readonly sites: 256
  readonly entries: 16384
  readonly objects: 8192
  readonly changes: 1024
  readonly keys: 64
  readonly versions: 32
  readonly attributes: 16
  readonly messageBytes: 16384
  readonly textBytes: 256
  readonly wordBytes: 32
  readonly roomBytes: 64
}

/** The server's words for refusals. */
export type ServerWord =
  | "bad-message" | "not-joined" | "already-joined" | "no-such-room" | "room-full" | "record-full" | "wrong-seq"
  | "own-count" | "ahead" | "not-closed" | "no-such-object" | "no-such-version" | "object-full" | "too-many-keys"
  | "too-many-versions" | "too-many-objects" | "too-far" | "gone" | "no-such-site" | "site-in-use"
  | "not-served" | "renewed"
/** The library's own words for refusals. */
export type OwnWord = "closed" | "withdrawn" | "another-room" | "too-long" | "read-only"

/** An error of the library. Each error that a room reports, or that its promises reject with, is one of these. */
export class GraceError extends Error {
  readonly name: string
}

/**
 * The server or this library refused a change or a join, which then has no effect. `message` is a sentence for people.
 */
export class Refused extends GraceError {
  constructor(word: ServerWord | OwnWord)
  readonly name: "Refused"
  readonly word: ServerWord | OwnWord
  /** The server's code, from 1 to 22; 0 for the library's own words. */
  readonly code: number
}

/**
 * The server, or a proxy in front of it, answered the handshake by 401, 403 or 404. Another attempt would get the same
 * answer. `message` is a sentence for people.
 */
export class Denied extends GraceError {
  constructor(status: 401 | 403 | 404, reason: string)
  readonly name: "Denied"
  readonly status: 401 | 403 | 404
  /** The text behind the status, such as `Unauthorized`. */
  readonly reason: string
}

/** The server sent something that the protocol does not allow. */
export class ProtocolFault extends GraceError {
  readonly name: "ProtocolFault"
}

/** The connection failed: it could not be opened, it broke, or a reply took too long. */
export class Lost extends GraceError {
  constructor(words: string, pauseMilliseconds?: number)
  readonly name: "Lost"
  /** How long the server asks the client to wait before the next attempt. */
  readonly pauseMilliseconds: number
}

/** One version of an object, as it was when you read it. It is immutable. */
export class Version {
  private constructor()
  readonly id: VersionId
  /** Whether a drop deleted this version. */
  readonly isGone: boolean
  /** Key and value of each attribute, sorted by key. Empty if the version is gone. */
  readonly attributes: ReadonlyMap<string, Value>
  /** The drops that this version survived: others changed it concurrently. */
  readonly outlived: Name[]
  /** The names of all changes in this version. */
  get members(): Name[]
  has(name: Name): boolean
}

/** Objects and their versions, computed from the operations added so far. */
export class Drawing {
  constructor()
  /** How many operations of a site were added. */
  count(site: number): number
  seen(): Seen
  /** @throws {ProtocolFault | Refused} the drawing is unchanged */
  add(operation: Operation): void
  /**
   * Checks whether `add` would accept a change.
   * @throws {ProtocolFault | Refused}
   */
  check(change: Put | Drop): void
  /** Removes the operations of a site from this number on. No other site's operation may count them. */
  remove(site: number, first: number): void
  /** How many objects there are. */
  get size(): number
  names(): Name[]
  has(name: Name): boolean
  /** @throws {Refused} `no-such-object` */
  kind(name: Name): string
  /** @throws {Refused} `no-such-object` */
  versions(name: Name): Version[]
  /**
   * The version that contains an operation that was added, as it was directly after it.
   * @throws {Refused} `no-such-object`
   */
  versionAfter(operation: Operation): Version
  /**
   * How many changes an object has, and which keys they use.
   * @throws {Refused} `no-such-object`
   */
  used(name: Name): { changes: number; keys: Set<string> }
}

/** A change that this client made: a creation, a put or a drop. */
export class Change {
  private constructor()
  /** The operation that was sent or will be sent. */
  get operation(): Operation
  get name(): Name
  /** The object that the change creates or modifies. When the room is renewed, it becomes that object's new name. */
  get object(): Name
  /** The kind of that object. */
  get kind(): string
  /** The version that contains this change, as it was directly after it, or as the new room shows it. */
  get version(): Version
  readonly isSent: boolean
  /**
   * The version that the change was made from, as it was then. It is null for a creation, and where the program named a
   * version by its identifier and that is not shown any more.
   */
  readonly base: Version | null
  /** When the change was made, in milliseconds of `performance.now()`. */
  readonly made: number
  /** Resolves when the server has accepted the change. Rejects with `Refused`. You may ignore it. */
  readonly done: Promise<void>
}

/**
 * `saving`: connected, and a change has been pending for a second or more.
 * - `waiting`: disconnected, until the next attempt to reconnect.
 */
export type State = "connecting" | "open" | "saving" | "waiting" | "closed"

/** An answer to the handshake that opened no WebSocket. */
export interface Answer {
  status: number
  /** The text behind the status. */
  reason?: string | undefined
  /** The value of the field `Retry-After`. */
  retryAfter?: number | string | undefined
}

/** The part of `WebSocket` that the library uses. A socket may call `onerror` with an `Answer`. */
export interface Socket {
  send(text: string): void
  close(code?: number): void
  onopen: ((event: any) => any) | null
  onmessage: ((event: any) => any) | null
  onclose: ((event: any) => any) | null
  onerror: ((event: any) => any) | null
}

/** The part of the browser's `sessionStorage` that the library uses. */
export interface Storage {
  getItem(key: string): string | null
  setItem(key: string, text: string): void
  removeItem(key: string): void
}

export interface Options {
  /** Opens a socket. The default is the global `WebSocket`. */
  connect?: ((address: string) => Socket) | undefined
  /** Whether the path of the connection ends with the room's name: false. */
  roomInPath?: boolean | undefined
  /** The first pause before the next wait, if the server answers waits at once without news: 20. Pauses grow. */
  pauseMilliseconds?: number | undefined
  /** The longest of these pauses: 1,000. */
  longestPauseMilliseconds?: number | undefined
  /** The client drops a connection if a reply takes longer than this: 15,000. A wait may take 25 seconds more. */
  replyMilliseconds?: number | undefined
  /** How long the client tries to rejoin as its old site while the server still has its old session: 90,000. */
  backMilliseconds?: number | undefined
  /**
   * The backoff: the waits before the first, second and later attempts to reconnect. The last one repeats. A wait is as
   * long as the `retryAfter` of an answer, up to the longest of these.
   */
  retryMilliseconds?: readonly number[] | undefined
  /**
   * Where the client saves its state, so that a reloaded page continues as the same site. `true` is `sessionStorage`.
   * `"person"` is `localStorage`: a page that is opened later continues as a site that this browser had, and each open
   * tab has its own. That needs `navigator.locks`, so TLS or `localhost`; without it, `"person"` means `true`.
   */
  storage?: boolean | "person" | Storage | undefined
  /** Whether to show a room that takes nobody new: false. The client reads it every two seconds, as a free site. */
  lookIfFull?: boolean | undefined
}

/** What the listeners of each event receive. */
export interface RoomEvents {
  /**
   * These objects were created, changed or deleted. `renamed` lists objects and own operations that have a new name. An
   * old name may be the new one of another object.
   */
  change: { objects: Name[]; renamed: [old: Name, now: Name][] }
  /**
   * The connection state. `milliseconds` is how long the oldest change has been pending if it is `saving`, otherwise 0.
   */
  state: { state: State; words: string; milliseconds: number }
  /** Entries of the room that are loaded. The last event has `isLoaded` true. */
  progress: { have: number; of: number; isLoaded: boolean }
  /** A change failed, and its effect was removed. */
  refusal: { refusal: Refused; change: Change }
  /** The server now has a different room of this name. `text` has the entries of the old one, one a line. */
  reset: { words: string; text: string }
  /**
   * The room `oldRoom` has ended, and the client is in `newRoom`, which draws the same. The `change` before it has the
   * new names of objects. `copies` lists versions of this client that became objects of their own. `text` has the old
   * record and the pending changes if they could not be taken along.
   */
  renewed: {
    oldRoom: string
    newRoom: string
    words: string
    copies: [object: Name, copy: Name][]
    text: string | null
  }
  /** The program has made these changes, in one transaction. A change outside of `transaction` is one of its own. */
  transaction: { changes: Change[] }
  /** Some note of the room has changed. `notes` is what `room.notes` is now. */
  notes: { notes: Map<number, string> }
}

/** A client in a room. */
export class Room {
  /**
   * @throws {TypeError} the name is invalid, there is neither `options.connect` nor a global `WebSocket`, or with
   * `options.roomInPath` the address is no URL
   */
  constructor(address: string, name: string, options?: Options)

  get state(): State
  /** The connection state as a sentence for people. */
  get words(): string
  /** The error that closed the room; null while it is not closed, and after `close`. */
  get fault(): Error | null
  /** The name of the room. When the room is renewed, it becomes that of the new one. */
  get name(): string
  /** Whether the room has ended. The client then goes on in the next one, as soon as there is no hold. */
  get hasEnded(): boolean
  /** The number of this client's site, from 1 to 256; null before the client has joined. */
  get site(): number | null
  /** Whether the room takes nobody new, and the client may only look at it. See the option `lookIfFull`. */
  get isReadOnly(): boolean
  /** The entries that were pulled so far. */
  get record(): readonly Entry[]
  /** The state vector that the next change carries. */
  get seen(): Seen
  /** The changes that the server has not answered yet, oldest first. */
  get pending(): readonly Change[]
  /** How many entries of the record were pulled, and how many the server has at least. */
  get progress(): { have: number; of: number }
  /** Whether the client has loaded all entries that the room had when the client joined. */
  get isLoaded(): boolean
  /** Whether a hold keeps new entries from being shown. */
  get hasNews(): boolean

  objects(): Name[]
  has(object: Name): boolean
  /** @throws {Refused} `no-such-object` */
  kind(object: Name): string
  /**
   * Sorted by identifier.
   * @throws {Refused} `no-such-object`
   */
  versions(object: Name): Version[]
  /** The current versions that contain all changes of an earlier version. */
  successors(object: Name, version: Version): Version[]
  /**
   * The changes of this client that have these names, also those that its site made before the page was reloaded. Of
   * those `base` is null and `made` is 0. Null stands for a change that this client does not show.
   * @throws {TypeError} a name is invalid
   */
  changesNamed(names: Name[]): (Change | null)[]
  /**
   * Adds a listener. The function that it returns removes the listener.
   * @throws {TypeError} there is no such event
   */
  on<Event extends keyof RoomEvents>(event: Event, listener: (news: RoomEvents[Event]) => void): () => void

  /**
   * This client's own note: a string of at most 256 bytes in UTF-8, which others in the room see while this client is
   * in it. The empty string is none. Set it as often as you like: the client sends the newest one, at most ten times a
   * second, and again every 20 seconds. It sets the note again after each reconnect, and in the room's successor.
   */
  get note(): string
  /** @throws {TypeError | RangeError} the note is too long or no string. Nothing has changed. */
  set note(text: string)
  /**
   * All notes of the room as the server last told them, the own one too: site and text, by site in ascending order.
   * Each call gives a new copy. It is empty while the client is not in the room, and if the server does not know notes.
   * A client asks for notes once you have listened for `notes`, read this or set `note`.
   */
  get notes(): Map<number, string>

  /** @throws {Refused | TypeError | RangeError} nothing has changed */
  create(kind: string, attributes?: Attributes): Change
  /**
   * Sets 1 to 16 attributes of a version in one change. `seen` is an earlier value of `seen`, with a version of then:
   * what others have changed since is concurrent. @throws {Refused | TypeError | RangeError} nothing has changed
   */
  put(object: Name, version: VersionId | Version, attributes: Attributes, seen?: Seen): Change
  /**
   * Sets one attribute of a version.
   * @throws {Refused | TypeError | RangeError} nothing has changed
   */
  set(object: Name, version: VersionId | Version, key: string, value: Value): Change
  /**
   * Deletes a version.
   * @throws {Refused | TypeError} nothing has changed
   */
  drop(object: Name, version: VersionId | Version): Change
  /**
   * Makes the changes of a call together: they are sent one behind the other, and are one step of an `UndoManager`.
   * They are not atomic: others may see the first before the last, and the server may refuse one and take the others.
   */
  transaction<Result>(call: () => Result): Result
  /** Stops showing other people's changes until you call the function that it returns. */
  hold(): () => void

  /** Resolves when no change is pending, or the room is closed. */
  settled(): Promise<void>
  /** Closes the room and its connection for good. Pending changes reject with `closed`. */
  close(): void
}

/** A change that could not be undone or redone. */
export interface Failure {
  readonly change: Change
  readonly reason: "changed" | "deleted" | "several-versions" | "left-behind" | "unknown-base" | ServerWord | OwnWord
  /** A sentence for people. */
  readonly words: string
}

/** Undo and redo of what this client did in a room. While it exists, it records the transactions of the program. */
export class UndoManager {
  /**
   * `valueOfAbsent` is the value that undoing a put gives to a key that had none before: `""`. `mostSteps` is how many
   * steps are kept: 200.
   */
  constructor(
    room: Room,
    options?: { valueOfAbsent?: (kind: string, key: string) => Value; mostSteps?: number },
  )

  get canUndo(): boolean
  get canRedo(): boolean
  /** Undoes the last step. The result has the new changes, and why others were not made. */
  undo(): { changes: Change[]; failures: Failure[] }
  /** Redoes the step that was undone last. */
  redo(): { changes: Change[]; failures: Failure[] }
  /** Forgets all steps. */
  clear(): void
  /** Ends the recording, and forgets all steps. */
  end(): void
}

/** @throws {ProtocolFault} the entry is malformed */
export function operationOf(entry: Entry | Json[]): Operation | null
export function entryOf(operation: Operation): Entry
export function isSameId(one: VersionId, other: VersionId): boolean
/**
 * Integers beyond 2^53 - 1 in either direction become `bigint`.
 * @throws {SyntaxError}
 */
export function readText(text: string): Json
/** @throws {TypeError | RangeError} the value contains something else */
export function writeText(value: Json | readonly Json[] | Entry): string
