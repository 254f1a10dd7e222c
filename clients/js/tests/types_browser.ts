// What a browser hands in fits the types, as tsc checks.

import { Room } from "../grace.js"

new Room("ws://localhost:7000/", "r", {
  connect: (address) => new WebSocket(address), storage: window.localStorage,
})
