/** Links to drawings: the page's address with the name of a room, and with a server if it names one. */

const USUAL_ROOM = "drawing"

/** The server of the rooms if the page's address names none. */
const usualServer = () =>
  location.protocol === "https:" ? `wss://${location.host}/` : `ws://${location.hostname}:7000/`

/** The room and the server that the page's address names. The connection's path is the server's and the room's name. */
export function placeOfPage() {
  const query = new URLSearchParams(location.search)
  const roomName = query.get("room") ?? USUAL_ROOM
  const server = query.get("server")
  return { roomName, server: server === null ? usualServer() : withoutRoom(server, roomName) }
}

/** The link to another room, or this one, on the server of the page. */
export function linkTo(roomName) {
  const link = new URL(location.pathname, location.origin)
  const isNamed = new URLSearchParams(location.search).has("server")
  if (isNamed) link.searchParams.set("server", placeOfPage().server)
  link.searchParams.set("room", roomName)
  return link.href
}

/** The server's address without the room's name, if its path ends with it. */
function withoutRoom(server, roomName) {
  const url = new URL(server)
  if (url.pathname.endsWith(`/${roomName}`)) url.pathname = url.pathname.slice(0, -roomName.length)
  return url.href
}

/** A text that nobody can guess and nobody else has: 128 random bits, in hexadecimal. It can name a new room. */
export const uniqueText = () =>
  [...crypto.getRandomValues(new Uint8Array(16))].map((byte) => byte.toString(16).padStart(2, "0")).join("")
