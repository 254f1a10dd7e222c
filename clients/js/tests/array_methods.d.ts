/** Methods of node 18 and of browsers since 2022 that the types of tsc before version 5.0 lack. */

interface Array<T> {
  findLast(isIt: (item: T, place: number) => unknown): T | undefined
  findLastIndex(isIt: (item: T, place: number) => unknown): number
}
interface ReadonlyArray<T> {
  findLast(isIt: (item: T, place: number) => unknown): T | undefined
  findLastIndex(isIt: (item: T, place: number) => unknown): number
}
