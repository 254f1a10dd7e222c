/**
 * Pulls a record page by page. Several pulls are in flight at once, so that a line with a long round trip costs little.
 */

// The entries on a page of the server. A page may have fewer.
const PAGE_ENTRIES = 64
// The server lets 64 frames wait for a connection before it stops reading. Half of them leave room for other replies.
const MOST_PULLS = 32

/**
 * What is loaded. `progress` says how many entries the client has, and how many the server has at least. `pull` asks
 * for the entries from a place on. `take` gets the next ones.
 * @typedef {{ progress(): { have: number, of: number }, pull(from: number): Promise<any[][]>,
 *   take(entries: any[][]): void }} Loaded
 */

/**
 * Pulls until the client has all entries that the server is known to have.
 * @param {Loaded} loaded
 */
export async function loadAll({ progress, pull, take }) {
  let [next, pageLength, lastLength] = [0, PAGE_ENTRIES, PAGE_ENTRIES]
  const pulls = []
  const send = (from) => {
    const page = pull(from)
    // A failure ends the loading at the first page that it concerns.
    page.catch(() => {})
    pulls.push({ from, page })
  }
  for (let { have, of } = progress(); pulls.length > 0 || have < of; { have, of } = progress()) {
    if (pulls.length === 0) next = have
    // The server refuses a place above the number of its entries.
    for (; next < of && pulls.length < MOST_PULLS; next += pageLength) send(next)
    const { from, page } = pulls.shift()
    const entries = await page
    const known = progress().have - from
    if (known < 0) {
      // The page before was short: the other pulls are of no use, and the next ones go by its length.
      next = Infinity
      pageLength = lastLength
    } else if (entries.length > known || entries.length === 0) {
      take(entries.slice(known))
      lastLength = entries.length
    }
  }
}
