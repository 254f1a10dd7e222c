/** A set of small integers from 0, stored as bits. The cost of each call is linear in the largest member. */
export class BitSet {
  /** @param {Uint32Array} [words] the bits, 32 in each word; the set takes ownership of the array */
  constructor(words = new Uint32Array(1)) {
    this.words = words
  }

  /** @returns {BitSet} an independent copy */
  copy() {
    return new BitSet(this.words.slice())
  }

  /** @param {number} index @returns {boolean} */
  has(index) {
    return ((this.words[index >>> 5] >>> (index & 31)) & 1) === 1
  }

  /** @param {number} index */
  insert(index) {
    this.#growTo((index >>> 5) + 1)
    this.words[index >>> 5] |= 1 << (index & 31)
  }

  /**
   * Adds all members of another set.
   * @param {BitSet} other
   */
  insertAll(other) {
    const { words } = other
    this.#growTo(words.length)
    for (let word = 0; word < words.length; word++) this.words[word] |= words[word]
  }

  /** @param {BitSet} other @returns {boolean} whether the sets intersect */
  intersects(other) {
    const shared = Math.min(this.words.length, other.words.length)
    for (let word = 0; word < shared; word++) if ((this.words[word] & other.words[word]) !== 0) return true
    return false
  }

  /** @param {BitSet} other @returns {boolean} whether this is a subset of the other */
  isSubsetOf(other) {
    return this.words.every((bits, word) => (bits & ~(other.words[word] ?? 0)) === 0)
  }

  /** @param {BitSet} other @returns {BitSet} the members that the other lacks */
  without(other) {
    return new BitSet(this.words.map((bits, word) => bits & ~(other.words[word] ?? 0)))
  }

  /** @param {number} index @returns {BitSet} a copy with one more member */
  with(index) {
    const copy = this.copy()
    copy.insert(index)
    return copy
  }

  /** @returns {number[]} the members, in ascending order */
  values() {
    const values = []
    for (let word = 0; word < this.words.length; word++) {
      for (let bits = this.words[word]; bits !== 0; bits &= bits - 1) {
        values.push(word * 32 + 31 - Math.clz32(bits & -bits))
      }
    }
    return values
  }

  #growTo(length) {
    if (length <= this.words.length) return
    const words = new Uint32Array(Math.max(length, 2 * this.words.length))
    words.set(this.words)
    this.words = words
  }
}
