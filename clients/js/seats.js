/**
 * The seats of one person's browser in one room. A seat has the saved state of one site. A tab has a seat of its own
 * while it is open, by a lock of the browser. A tab that is opened later takes a seat that is free, so it needs no new
 * site.
 */

import { LIMITS } from "./forms.js"
import { hasSavedChanges, prefixOf, removeRecord } from "./storage.js"

/** @typedef {import("./storage.js").Storage} Storage */
/** @typedef {{ storage: Storage, number: number, release: () => void }} Seat */

/**
 * What a browser has for seats: `localStorage`, `sessionStorage` and `navigator.locks`.
 * @typedef {object} Browser
 * @property {Storage & { readonly length: number, key(place: number): string | null }} local
 * @property {Storage} session
 * @property {{ request(name: string, options: object, whenLocked: (lock: any) => any): Promise<any> }} locks
 */

// Above this size, the records of rooms that no tab has open are removed. A browser keeps about 5,000,000 characters.
const MOST_CHARACTERS = 2000000

/**
 * The browser of this page. It is null if that has no locks, as on a page without TLS, or denies the page a storage.
 * @returns {Browser | null}
 */
export function browserOf() {
  try {
    const { localStorage: local, sessionStorage: session, navigator } = globalThis
    const locks = navigator?.locks
    return local && session && locks ? { local, session, locks } : null
  } catch {
    return null
  }
}

/**
 * Takes a seat that no other tab has: the one that this tab had before it was reloaded, or one with unsent changes, or
 * the first.
 * @param {Browser} browser
 * @param {string} address of the server
 * @param {string} name of the room
 * @returns {Promise<Seat>}
 */
export async function takeSeat(browser, address, name) {
  const { local, session, locks } = browser
  const ownKey = `${prefixOf(address, name, 1)} seat`
  for (const number of candidates(local, Number(session.getItem(ownKey)), address, name)) {
    const release = await lock(locks, prefixOf(address, name, number))
    if (release === null) continue
    try {
      session.setItem(ownKey, String(number))
    } catch {
      // A reload then takes the first free seat.
    }
    await makeSpace(browser)
    return { storage: local, number, release }
  }
  throw new Error("Too many tabs have this room open.")
}

/** The seats to try, in order. */
function candidates(local, own, address, name) {
  const all = Array.from({ length: LIMITS.sites }, (_, place) => place + 1)
  const waiting = all.filter((number) => hasSavedChanges(local, prefixOf(address, name, number)))
  return new Set([...all.filter((number) => number === own), ...waiting, ...all])
}

/** Takes a lock. The result releases it; null if another tab has it. */
function lock(locks, name) {
  return new Promise((resolve, reject) => {
    const hold = (granted) => (granted === null ? resolve(null) : new Promise((release) => resolve(release)))
    locks.request(name, { ifAvailable: true }, hold).catch(reject)
  })
}

/** Removes the records of seats that no tab has, if the browser's storage fills up. Sites and unsent changes stay. */
async function makeSpace({ local, locks }) {
  const keys = Array.from({ length: local.length }, (_, place) => local.key(place))
  const prefixes = keys.map((key) => /^(grace .+) record 0$/.exec(key)?.[1]).filter((prefix) => prefix !== undefined)
  for (const prefix of prefixes) {
    if (charactersIn(local) <= MOST_CHARACTERS) return
    const release = await lock(locks, prefix)
    if (release === null) continue
    if (!hasSavedChanges(local, prefix)) removeRecord(local, prefix)
    release()
  }
}

const charactersIn = (local) =>
  Array.from({ length: local.length }, (_, place) => (local.getItem(local.key(place)) ?? "").length)
    .reduce((sum, length) => sum + length, 0)
