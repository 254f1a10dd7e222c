/** The options of a `Room`. */

/**
 * @typedef {object} Options
 * @property {(address: string) => import("./connection.js").Socket} [connect] opens a socket that behaves like a
 *   `WebSocket`. The default is the global `WebSocket` of browsers, and of node from version 22
 * @property {boolean} [roomInPath] whether the path of the connection ends with the room's name:
 *   `ws://localhost:7000/` then connects to `/r` for the room `r`. The default is the path of the address alone
 * @property {number} [pauseMilliseconds] the first pause before the next wait, if the server answered a wait at once
 *   and without news: 20. Each such pause is 1.25 times the one before. After news the next one is short again
 * @property {number} [longestPauseMilliseconds] the longest of these pauses: 1,000
 * @property {number} [replyMilliseconds] the client drops a connection if a reply takes longer than this: 15,000. The
 *   25 seconds for which a server may hold a wait do not count
 * @property {number} [backMilliseconds] how long the client tries to rejoin as its old site while the server still has
 *   its old session: 90,000. Then it joins as a new site
 * @property {number[]} [retryMilliseconds] the backoff: the waits before the first, second and later attempts to
 *   reconnect. The last one repeats. If the answer to the handshake has `Retry-After`, and the socket tells it, the wait
 *   is at least as long, up to the longest of these
 * @property {boolean | "person" | import("./storage.js").Storage} [storage] where the client saves its site, the record
 *   and its pending changes, so that a reloaded page continues as the same site. `true` means the browser's
 *   `sessionStorage`, which each tab has for itself and loses when it is closed. `"person"` means its `localStorage`:
 *   a page that is opened again later continues as a site that this browser had, and each open tab has a site of its
 *   own. That needs `navigator.locks`, so TLS or `localhost`; without it, `"person"` means `true`. Of another storage,
 *   two clients must not use one for the same room at the same time. The default saves nothing
 * @property {boolean} [lookIfFull] whether to show a room that takes nobody new: the client then reads it every two
 *   seconds as any site that is free, and `isReadOnly` is true. By default such a room is closed
 */

const DEFAULTS = {
  connect: (address) => new WebSocket(address),
  roomInPath: false,
  pauseMilliseconds: 20,
  longestPauseMilliseconds: 1000,
  replyMilliseconds: 15000,
  backMilliseconds: 90000,
  retryMilliseconds: [100, 500, 1000, 2000, 5000],
  storage: false,
  lookIfFull: false,
}

export const NO_WEB_SOCKET = "There is no global WebSocket. Pass the option connect, such as " +
  "new Room(address, name, { connect: (address) => new WebSocket(address) }) with the WebSocket of a library."

/**
 * Fills in the defaults.
 * @param {Options} options
 * @returns {Required<Options>}
 */
export function withDefaults(options) {
  const said = Object.entries(options).filter(([, value]) => value !== undefined)
  return { ...DEFAULTS, ...Object.fromEntries(said) }
}

/**
 * The address to connect to.
 * @param {string} address of the server
 * @param {string} name of the room
 * @param {Required<Options>} options
 * @throws {TypeError} with `roomInPath`: the address is no URL
 */
export function addressOf(address, name, { roomInPath }) {
  if (!roomInPath) return address
  const url = new URL(address)
  url.pathname = `${url.pathname.replace(/\/$/, "")}/${name}`
  return url.href
}

/**
 * The storage that the option selects, or null. For `"person"` it is that of a page without seats.
 * @param {Options["storage"]} option
 */
export function storageOf(option) {
  if (option !== true && option !== "person") return option || null
  try {
    return globalThis.sessionStorage ?? null
  } catch {
    // The browser denies this page a storage.
    return null
  }
}
