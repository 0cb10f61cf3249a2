//! Columns of numbers that grow, texts by number, and numbers put into groups: a run of a million
//! events is held in these, without an object for each event.

(function (geostation) {
  'use strict';

  /**
   * Columns of one length, which grow together. A row is taken by `next`, then each column's value
   * is put where it is: a store of its own for each kind of array is what makes it quick.
   */
  class Table {
    /**
     * @param {Record<string, any>} kinds of the columns, as `Int32Array`
     * @param {number} [capacity] rows that have room before it grows
     */
    constructor(kinds, capacity = 1024) {
      this.length = 0;
      this.capacity = capacity;
      this.names = Object.keys(kinds);
      for (const name of this.names) this[name] = {values: new kinds[name](this.capacity)};
    }

    /** @returns {number} the number of a new row */
    next() {
      if (this.length === this.capacity) this.grow();
      this.length += 1;
      return this.length - 1;
    }

    grow() {
      this.capacity *= 2;
      for (const name of this.names) this[name].values = widened(this[name].values, this.capacity);
    }
  }

  /** The same values with room for more. @param {any} values @param {number} capacity */
  function widened(values, capacity) {
    const wider = new values.constructor(capacity);
    wider.set(values);
    return wider;
  }

  /** Texts by number: each is kept once. 0 stands for none. */
  class Words {
    constructor() {
      /** @type {(string | undefined)[]} */
      this.texts = [undefined];
      this.numbers = new Map();
      /** The number of the last text with a hash of its octets. @type {Map<number, number>} */
      this.hashed = new Map();
    }

    /** @param {string | undefined} text @returns {number} */
    number(text) {
      if (text === undefined) return 0;
      let number = this.numbers.get(text);
      if (number === undefined) {
        number = this.texts.length;
        this.texts.push(text);
        this.numbers.set(text, number);
      }
      return number;
    }

    /**
     * The number of a text of ASCII that stands in octets: it is made once, not at each place.
     * @param {Uint8Array} octets @param {number} from @param {number} to
     */
    numberAt(octets, from, to) {
      let hash = to - from;
      for (let at = from; at < to; at += 1) hash = (Math.imul(hash, 31) + octets[at]) | 0;
      const known = this.hashed.get(hash);
      if (known !== undefined && isTextAt(this.texts[known], octets, from, to)) return known;
      let text = '';
      for (let at = from; at < to; at += 1) text += String.fromCharCode(octets[at]);
      const number = this.number(text);
      this.hashed.set(hash, number);
      return number;
    }
  }

  /** @param {string} text @param {Uint8Array} octets @param {number} from @param {number} to */
  function isTextAt(text, octets, from, to) {
    if (text.length !== to - from) return false;
    for (let i = 0; i < text.length; i += 1) {
      if (text.charCodeAt(i) !== octets[from + i]) return false;
    }
    return true;
  }

  /** The members of each group, those of one group rising. */
  class Groups {
    /**
     * @param {ArrayLike<number>} keys the group of each member; of one that is in none -1, or a
     *   group that isn't there
     * @param {number} groups how many there are
     * @param {number} [count] of members
     */
    constructor(keys, groups, count = keys.length) {
      const starts = new Int32Array(groups + 1);
      for (let i = 0; i < count; i += 1) {
        const key = keys[i];
        if (key >= 0 && key < groups) starts[key + 1] += 1;
      }
      for (let i = 0; i < groups; i += 1) starts[i + 1] += starts[i];
      const next = starts.slice(0, groups);
      this.starts = starts;
      this.members = new Int32Array(starts[groups]);
      for (let i = 0; i < count; i += 1) {
        const key = keys[i];
        if (key < 0 || key >= groups) continue;
        this.members[next[key]] = i;
        next[key] += 1;
      }
    }

    /** @param {number} group @returns {Int32Array} its members, none where it isn't there */
    of(group) {
      if (!(group >= 0 && group < this.starts.length - 1)) return NONE;
      return this.members.subarray(this.starts[group], this.starts[group + 1]);
    }
  }

  const NONE = new Int32Array(0);

  /**
   * How many of some rising numbers are at most `limit`: of those in [low, high), where these are
   * given, and all before them.
   * @param {ArrayLike<number>} rising @param {number} limit
   */
  function countUpTo(rising, limit, high = rising.length, low = 0) {
    while (low < high) {
      const middle = (low + high) >> 1;
      if (rising[middle] <= limit) low = middle + 1;
      else high = middle;
    }
    return low;
  }

  geostation.columns = {Table, Words, Groups, countUpTo, widened};
})(globalThis.geostation ??= {});
