/** The order of objects from back to front, by the key `z`. */

import { keyOf } from "./board.js"

/** What `z` an object gets in front of all others, and behind them. An object that is there already keeps its own. */
export function ordersOf(board, name) {
  const others = board.drawn().filter((other) => keyOf(other.name) !== keyOf(name))
  const places = others.flatMap(({ shapes }) => shapes).map(({ z }) => z)
  const most = places.reduce((one, z) => Math.max(one, z), 0)
  const least = places.reduce((one, z) => Math.min(one, z), 0)
  const { z: own } = board.shapes(name)[Math.max(0, board.shown(name).indexOf(board.picked(name)))]
  return { front: own > most ? own : most + 1, back: own < least ? own : least - 1 }
}
