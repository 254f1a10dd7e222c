/** The keys that have the names of those who changed an object: `by-ROOM-SITE`. They are no attributes of its shape. */

const MAKER_KEY = /^by-[0-9]+-[0-9]+$/
const ROOM_NUMBER = /\.([0-9]+)$/

/** The number of a room in its chain, from 1. */
export const roomNumberOf = (roomName) => ROOM_NUMBER.exec(roomName)?.[1] ?? "1"

/** The key of a site, with the room's number in its chain: a later room has other sites of this number. */
export const makerKeyOf = (roomName, site) => `by-${roomNumberOf(roomName)}-${site}`

/** Whether a key has the name of somebody who changed the object. */
export const isMakerKey = (key) => MAKER_KEY.test(key)

/**
 * Attributes without the names of those who changed the object.
 * @param {Iterable<[string, any]>} attributes @returns {[string, any][]}
 */
export const withoutMakers = (attributes) => [...attributes].filter(([key]) => !isMakerKey(key))
