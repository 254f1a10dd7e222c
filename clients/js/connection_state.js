/**
 * The connection state that a room reports: as a word, as a sentence, and how long the oldest change has been pending.
 */

/**
 * @typedef {"connecting" | "open" | "saving" | "waiting" | "closed"} State
 * - `saving`: connected, and a change has been pending for a second or more
 * - `waiting`: disconnected, until the next attempt to reconnect
 */

const SAVING_MILLISECONDS = 1000
const SILENT_MILLISECONDS = 3000
// How often to report again, while changes are pending or the server is silent.
const REPEAT_MILLISECONDS = 1000

const CONNECTING = "Connecting."
const SAVING = "Your last changes are not saved yet."
const SILENT = "The server is not answering. All its places may be taken. Please wait."
const OFFLINE = "This device has no network. It goes on when there is one again."

/** The connection state, and a timer that reports it again while changes are pending. */
export class ConnectionState {
  /** @type {State} */
  state = "connecting"
  words = CONNECTING
  #report
  #pendingTime
  #silentTime
  #openWords = ""
  #timer = null

  /**
   * @param {(news: { state: State, words: string, milliseconds: number }) => void} report
   * @param {() => number | null} pendingTime how long the oldest change has been pending, in milliseconds; null if none
   *   is
   * @param {() => number} silentTime how long the server has owed a reply, in milliseconds
   */
  constructor(report, pendingTime, silentTime) {
    this.#report = report
    this.#pendingTime = pendingTime
    this.#silentTime = silentTime
  }

  /** Whether the client has joined the room. */
  get isIn() {
    return this.state === "open" || this.state === "saving"
  }

  /** An attempt to connect starts, or continues with another sentence. */
  connect(words = CONNECTING) {
    this.#wakeIn(SILENT_MILLISECONDS)
    this.#set("connecting", words)
  }

  /** The client has joined the room. */
  enter(words) {
    this.#openWords = words
    this.#stop()
    const waited = this.#pendingTime()
    if (waited !== null && waited >= SAVING_MILLISECONDS) this.#reportSaving(waited)
    else {
      this.#set("open", words)
      this.update()
    }
  }

  /** The connection was lost, or the room was closed. */
  leave(state, words) {
    this.#stop()
    this.#set(state, words)
  }

  /** Updates the state after a change was made or answered. */
  update() {
    if (!this.isIn) return
    const waited = this.#pendingTime()
    if (waited !== null) {
      if (this.#timer === null) this.#wakeIn(SAVING_MILLISECONDS - waited)
    } else if (this.state === "saving") {
      this.#stop()
      this.#set("open", this.#openWords)
    }
  }

  #set(state, words, milliseconds = 0) {
    this.state = state
    this.words = words
    this.#report({ state, words, milliseconds })
  }

  #reportSaving(waited) {
    const left = SILENT_MILLISECONDS - this.#silentTime()
    // Wake up when the silence becomes long enough for the other sentence.
    this.#wakeIn(left > 0 ? Math.min(left, REPEAT_MILLISECONDS) : REPEAT_MILLISECONDS)
    this.#set("saving", left > 0 ? SAVING : silentWords(), waited)
  }

  #stop() {
    clearTimeout(this.#timer)
    this.#timer = null
  }

  #wakeIn(milliseconds) {
    this.#stop()
    this.#timer = setTimeout(() => this.#wake(), milliseconds)
  }

  #wake() {
    this.#timer = null
    if (this.state === "connecting") this.#updateSilence()
    else {
      const waited = this.#pendingTime()
      if (waited === null) return
      if (this.state === "saving" || waited >= SAVING_MILLISECONDS) this.#reportSaving(waited)
      else this.#wakeIn(SAVING_MILLISECONDS - waited)
    }
  }

  /** While connecting, the sentence says whether the server is silent. */
  #updateSilence() {
    const left = SILENT_MILLISECONDS - this.#silentTime()
    const isSilent = left <= 0
    this.#wakeIn(isSilent ? REPEAT_MILLISECONDS : left)
    if (isSilent && this.words !== silentWords()) this.#set("connecting", silentWords())
    else if (!isSilent && [SILENT, OFFLINE].includes(this.words)) this.#set("connecting", CONNECTING)
  }
}

/** Why the server does not answer, as far as the platform knows. */
const silentWords = () => (globalThis.navigator?.onLine === false ? OFFLINE : SILENT)
