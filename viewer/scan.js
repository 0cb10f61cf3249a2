//! Octets of a text, read from one place to the next: prefixes, whole numbers, words, hexadecimal.

(function (geostation) {
  'use strict';

  const LINE_FEED = 10;
  const QUOTE = 34;
  const MINUS = 45;
  const ZERO = 48;
  const COMMA = 44;
  const BRACKET = 93;
  const BRACE = 125;
  /** More digits may be more than a number holds exactly. */
  const MOST_DIGITS = 15;
  /** The value of each hexadecimal digit, 255 of any other octet. */
  const DIGITS = new Uint8Array(256).fill(255);
  /** Whether an octet is a letter, a digit, `_` or `-`: what a word has. */
  const IS_WORD = new Uint8Array(256);
  for (let i = 0; i < 256; i += 1) {
    const sign = String.fromCharCode(i);
    if (/^[0-9a-f]$/.test(sign)) DIGITS[i] = parseInt(sign, 16);
    IS_WORD[i] = /^[\w-]$/.test(sign) ? 1 : 0;
  }

  /** ASCII text of at least four signs, which is looked for four octets at a time. */
  class Prefix {
    /** @param {string} text */
    constructor(text) {
      this.length = text.length;
      const octets = Uint8Array.from(text, (sign) => sign.charCodeAt(0));
      const view = new DataView(octets.buffer);
      /** Each four octets; the last four are the text's last, and may begin within those before. */
      this.words = new Uint32Array(Math.ceil(this.length / 4));
      this.last = this.words.length - 1;
      for (let i = 0; i < this.last; i += 1) this.words[i] = view.getUint32(4 * i, true);
      this.words[this.last] = view.getUint32(this.length - 4, true);
    }
  }

  /**
   * Reads octets from one place to the next. What isn't there is -1 or false, and then the place is
   * wherever it was found out. Numbers and words need some octet behind them: a line has its feed.
   */
  class Scanner {
    /** @param {Uint8Array} octets */
    begin(octets) {
      this.octets = octets;
      this.view = new DataView(octets.buffer, octets.byteOffset, octets.byteLength);
      this.at = 0;
    }

    /** Passes a prefix. @param {Prefix} prefix */
    takes({length, words, last}) {
      const {view, at} = this;
      const end = at + length;
      if (end > view.byteLength) return false;
      for (let i = 0; i < last; i += 1) {
        if (view.getUint32(at + 4 * i, true) !== words[i]) return false;
      }
      if (view.getUint32(end - 4, true) !== words[last]) return false;
      this.at = end;
      return true;
    }

    /** Passes the brace and the line feed that end a line. */
    takesEnd() {
      const {octets, at} = this;
      if (octets[at] !== BRACE || octets[at + 1] !== LINE_FEED) return false;
      this.at = at + 2;
      return true;
    }

    /** Passes one of some prefixes. @param {Prefix[]} prefixes @returns {number} which */
    takesOne(prefixes) {
      for (let i = 0; i < prefixes.length; i += 1) {
        if (this.takes(prefixes[i])) return i;
      }
      return -1;
    }

    /** A whole number that isn't negative, behind a prefix. @param {Prefix} prefix */
    wholeBehind(prefix) {
      return this.takes(prefix) ? this.whole() : -1;
    }

    whole() {
      const {octets} = this;
      const start = this.at;
      let at = start;
      let value = 0;
      let digit = octets[at] - ZERO;
      while (digit >= 0 && digit <= 9) {
        value = 10 * value + digit;
        at += 1;
        digit = octets[at] - ZERO;
      }
      this.at = at;
      const length = at - start;
      const isLed = length > 1 && octets[start] === ZERO;
      return length === 0 || length > MOST_DIGITS || isLed ? -1 : value;
    }

    /** Whole numbers up to their closing bracket, undefined if they aren't. @returns {number[]} */
    wholes() {
      const {octets} = this;
      const found = [];
      for (;;) {
        const value = this.whole();
        if (value < 0) return undefined;
        found.push(value);
        this.at += 1;
        const sign = octets[this.at - 1];
        if (sign === BRACKET) return found;
        if (sign !== COMMA) return undefined;
      }
    }

    /** A whole number from -most to most, else NaN. @param {number} most */
    signed(most) {
      const isNegative = this.octets[this.at] === MINUS;
      if (isNegative) this.at += 1;
      const value = this.whole();
      if (value < 0 || value > most || (isNegative && value === 0)) return NaN;
      return isNegative ? -value : value;
    }

    /**
     * A word up to its quotation mark, by its number.
     * @param {import('./columns.js').Words} words
     */
    word(words) {
      const {octets} = this;
      const start = this.at;
      let at = start;
      while (IS_WORD[octets[at]] === 1) at += 1;
      this.at = at + 1;
      return octets[at] === QUOTE && at > start ? words.numberAt(octets, start, at) : -1;
    }

    /**
     * Hexadecimal text up to its quotation mark, which may be empty, by its number.
     * @param {import('./columns.js').Words} words
     */
    hexWord(words) {
      const {octets} = this;
      const start = this.at;
      let at = start;
      while (DIGITS[octets[at]] < 16) at += 1;
      this.at = at + 1;
      const isHex = octets[at] === QUOTE && (at - start) % 2 === 0;
      return isHex ? words.numberAt(octets, start, at) : -1;
    }

    /**
     * Hexadecimal text up to its quotation mark, as its octets.
     * @param {Uint8Array} out where its octets go @param {number} to the first one's place
     * @param {number} most of them
     * @returns {number} how many there are
     */
    hex(out, to, most) {
      const {octets} = this;
      let at = this.at;
      let length = 0;
      for (; octets[at] !== QUOTE && length < most; length += 1) {
        const high = DIGITS[octets[at]];
        const low = DIGITS[octets[at + 1]];
        if ((high | low) > 15) return -1;
        out[to + length] = (high << 4) | low;
        at += 2;
      }
      this.at = at + 1;
      return octets[at] === QUOTE ? length : -1;
    }
  }

  geostation.scan = {Scanner, Prefix, LINE_FEED};
})(globalThis.geostation ??= {});
