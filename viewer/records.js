//! The records of a capture: classic pcap, pcapng, and geostation's own format. Times are whole
//! milliseconds, as `show` prints them.

(function (geostation) {
  'use strict';

  /** A file is not a capture that the page reads. The message says why. */
  class CaptureFault extends Error {}

  /**
   * @typedef {object} CaptureRecord
   * @property {bigint} moment @property {Uint8Array} octets
   * @property {number | undefined} link the number of its link layer; undefined if it is the frame
   * @property {boolean} isCut whether the frame was longer than what the capture has of it
   */

  /** The first four octets of a classic pcap file: whether it is little-endian, units per ms. */
  const PCAPS = new Map([[0xa1b2c3d4, [false, 1000n]], [0xd4c3b2a1, [true, 1000n]],
    [0xa1b23c4d, [false, 1000000n]], [0x4d3cb2a1, [true, 1000000n]]]);
  const SECTION = 0x0a0d0d0a;

  /** @param {string} why @returns {never} */
  function refuse(why) {
    throw new CaptureFault(`${why}.`);
  }

  /** Octets of a file; each read refuses what ends too early. */
  class Source {
    /** @param {Uint8Array} octets */
    constructor(octets) {
      this.octets = octets;
      this.view = new DataView(octets.buffer, octets.byteOffset, octets.byteLength);
      this.isLittle = false;
      /** How many records were read. */
      this.count = 0;
    }

    get length() {
      return this.octets.length;
    }

    /** @param {number} at @param {number} length */
    need(at, length) {
      if (at + length > this.length) refuse(`The capture is cut in record ${this.count}`);
    }

    /** @param {number} at */
    u16(at) {
      this.need(at, 2);
      return this.view.getUint16(at, this.isLittle);
    }

    /** @param {number} at */
    u32(at) {
      this.need(at, 4);
      return this.view.getUint32(at, this.isLittle);
    }

    /**
     * A record with these octets.
     * @param {bigint} moment @param {number} length @param {number} whole length of its frame
     * @param {number} [link] @returns {CaptureRecord}
     */
    record(moment, at, length, whole, link) {
      this.need(at, length);
      this.count += 1;
      return {moment, link, isCut: length < whole, octets: this.octets.subarray(at, at + length)};
    }
  }

  /** @param {Source} source */
  function* ofOwnFormat(source) {
    for (let at = 0; at < source.length;) {
      const moment = (BigInt(source.u32(at)) << 32n) | BigInt(source.u32(at + 4));
      const length = source.u16(at + 8);
      if (length < 1 || length > 1468) refuse(`Record ${source.count} has an invalid length`);
      yield source.record(moment, at + 10, length, length);
      at += 10 + length;
    }
  }

  /** @param {Source} source @param {bigint} units of its times per millisecond */
  function* ofPcap(source, units) {
    const link = source.u32(20) & 0xffff;
    if (!geostation.links.isKnown(link)) refuse(`The page doesn’t read link layer ${link}`);
    for (let at = 24; at < source.length;) {
      const [seconds, part, length, whole] = [0, 4, 8, 12].map((more) => source.u32(at + more));
      const moment = 1000n * BigInt(seconds) + BigInt(part) / units;
      yield source.record(moment, at + 16, length, whole, link);
      at += 16 + length;
    }
  }

  /**
   * The options of a block that times need: the unit of an interface's times, and their offset.
   * @param {Source} source @param {number} at @param {number} end
   */
  function interfaceOf(source, at, end) {
    const found = {link: source.u16(at), perSecond: 1000000n, offset: 0n};
    for (let option = at + 8; option + 4 <= end;) {
      const [code, length] = [source.u16(option), source.u16(option + 2)];
      if (code === 0) break;
      if (code === 9 && length === 1) {
        const unit = source.octets[option + 4];
        found.perSecond = (unit & 128 ? 2n : 10n) ** BigInt(unit & 127);
      }
      if (code === 14 && length === 8) {
        source.need(option + 4, 8);
        found.offset = source.view.getBigInt64(option + 4, source.isLittle);
      }
      option += 4 + 4 * Math.ceil(length / 4);
    }
    return found;
  }

  /** The record of an Enhanced Packet Block. @param {Source} source @param {number} at its body */
  function enhanced(source, at, interfaces) {
    const about = interfaces[source.u32(at)];
    if (!about) refuse(`Record ${source.count} names an interface that is missing`);
    const ticks = (BigInt(source.u32(at + 4)) << 32n) | BigInt(source.u32(at + 8));
    const moment = 1000n * about.offset + (1000n * ticks) / about.perSecond;
    return source.record(moment, at + 20, source.u32(at + 12), source.u32(at + 16), about.link);
  }

  /** The record of a Simple Packet Block, which has no time. @param {Source} source */
  function simple(source, at, length, [about]) {
    if (!about) refuse(`Record ${source.count} names an interface that is missing`);
    const whole = source.u32(at);
    return source.record(0n, at + 4, Math.min(whole, length), whole, about.link);
  }

  /** The byte order of a section. @param {Source} source @param {number} at its block */
  function readOrder(source, at) {
    source.need(at, 12);
    const order = source.view.getUint32(at + 8, true);
    if (order !== 0x1a2b3c4d && order !== 0x4d3c2b1a) refuse('A section of the capture is invalid');
    source.isLittle = order === 0x1a2b3c4d;
  }

  /** @param {Source} source */
  function* ofPcapng(source) {
    let interfaces = [];
    for (let at = 0; at < source.length;) {
      const isSection = source.view.byteLength >= at + 4 && source.view.getUint32(at) === SECTION;
      if (isSection) [interfaces] = [[], readOrder(source, at)];
      const [type, length] = [source.u32(at), source.u32(at + 4)];
      if (length < 12 || length % 4 !== 0) refuse(`A block after record ${source.count} is invalid`);
      source.need(at, length);
      if (type === 1) interfaces.push(interfaceOf(source, at + 8, at + length - 4));
      if (type === 6) yield enhanced(source, at + 8, interfaces);
      if (type === 3) yield simple(source, at + 8, length - 16, interfaces);
      at += length;
    }
  }

  /** Whether a file begins as a capture. @param {Uint8Array} head */
  function isCapture(head) {
    if (head.length < 4) return false;
    const view = new DataView(head.buffer, head.byteOffset, head.byteLength);
    const magic = view.getUint32(0);
    if (magic === SECTION || PCAPS.has(magic)) return true;
    // The own format begins with a time, whose first octet is 0. No text begins so.
    return head[0] === 0;
  }

  /** The records of a capture. @param {Uint8Array} octets @returns {Generator<CaptureRecord>} */
  function of(octets) {
    const source = new Source(octets);
    const magic = source.u32(0);
    if (magic === SECTION) return ofPcapng(source);
    const [isLittle, units] = PCAPS.get(magic) ?? [];
    source.isLittle = isLittle ?? false;
    return units === undefined ? ofOwnFormat(source) : ofPcap(source, units);
  }

  geostation.records = {CaptureFault, isCapture, of};
})(globalThis.geostation ??= {});
