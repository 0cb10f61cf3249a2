//! Packets that the standard allows and a station rejects (EN 302 636-4-1 clause 9), in frames: each
//! field has all values of its bits.

(function (geostation) {
  'use strict';

  const {Fault, Octets, toHex} = geostation.frame;

  /**
   * @typedef {object} Outside what `Packet` of frame.js has, and
   * @property {'any' | 'btp-a' | 'btp-b' | 'ipv6'} next what follows the headers
   * @property {{address: string, tst: number, lat: number, lon: number}} [destination] of a guc and
   *   an ls-reply
   * @property {string} [sought] the address that an ls-request is for
   * @property {number} [sourcePort] of BTP-A
   */

  const PACKET = 14;
  /** Header type and sub-type. The sub-type of a packet for an area is its shape. */
  const KINDS = {0x10: 'beacon', 0x20: 'guc', 0x30: 'gac', 0x31: 'gac', 0x32: 'gac', 0x40: 'gbc',
    0x41: 'gbc', 0x42: 'gbc', 0x50: 'shb', 0x51: 'tsb', 0x60: 'ls-request', 0x61: 'ls-reply'};
  const SHAPES = ['circle', 'rectangle', 'ellipse'];
  const NEXT = ['any', 'btp-a', 'btp-b', 'ipv6'];
  /** Kinds without a payload. */
  const EMPTY = ['beacon', 'ls-request', 'ls-reply'];
  /** Where the payload begins. */
  const ENDS = {beacon: 36, shb: 40, tsb: 40, 'ls-request': 48, gac: 56, gbc: 56, guc: 60,
    'ls-reply': 60};

  /** A signed number of four octets. @param {Octets} octets @param {number} at */
  function signed(octets, at) {
    return octets.u32(at) | 0;
  }

  /** A short position vector. @param {Octets} octets @param {number} p */
  function readPlace(octets, p) {
    return {address: octets.hex(p, 8), tst: octets.u32(p + 8), lat: signed(octets, p + 12),
      lon: signed(octets, p + 16)};
  }

  /** A long position vector. @param {Octets} octets @param {number} p */
  function readVector(octets, p) {
    const place = readPlace(octets, p);
    const motion = octets.u16(p + 20);
    const speed = ((motion & 0x7fff) ^ 0x4000) - 0x4000;
    return {...place, pai: motion >> 15, speed, heading: octets.u16(p + 22)};
  }

  /** An area of a shape. @param {Octets} octets @param {string} shape */
  function readArea(octets, shape) {
    return {shape, lat: signed(octets, 40), lon: signed(octets, 44), a: octets.u16(48),
      b: octets.u16(50), angle: octets.u16(52)};
  }

  /** Ends the reading of what the standard doesn't allow. @param {boolean} holds */
  function check(holds) {
    if (!holds) throw new Fault('not of the standard', 0);
  }

  /** Basic and Common Header. @param {Octets} octets */
  function readHeaders(octets) {
    const next = NEXT[octets.u8(4) >> 4];
    const kind = KINDS[octets.u8(5)];
    const [left, max, length] = [octets.u8(3), octets.u8(10), octets.u16(8)];
    check(octets.u8(0) === 0x10 || octets.u8(0) === 0x11);
    check(next !== undefined && kind !== undefined && left <= max);
    check(length === 0 || !EMPTY.includes(kind));
    octets.need(ENDS[kind], length);
    return {kind, lifetime: octets.u8(2), left, max, trafficClass: octets.u8(6),
      mobile: octets.u8(7) >> 7, next, length};
  }

  /** The extended header. @param {Octets} octets @param {string} kind */
  function readExtended(octets, kind) {
    if (kind === 'beacon' || kind === 'shb') return readVector(octets, 12);
    const header = {number: octets.u16(12), ...readVector(octets, 16)};
    if (kind === 'gbc' || kind === 'gac') {
      header.area = readArea(octets, SHAPES[octets.u8(5) & 15]);
    }
    if (kind === 'guc' || kind === 'ls-reply') header.destination = readPlace(octets, 40);
    if (kind === 'ls-request') header.sought = octets.hex(40, 8);
    return header;
  }

  /** The header of BTP and the payload. @param {Octets} octets */
  function readPayload(octets, {kind, next, length}) {
    if (EMPTY.includes(kind)) return {};
    const start = ENDS[kind];
    if (length < 4 || !next.startsWith('btp')) return {payload: octets.hex(start, length)};
    const [port, other] = [octets.u16(start), octets.u16(start + 2)];
    const ports = next === 'btp-a' ? {sourcePort: other, port} : {port, info: other};
    return {...ports, payload: octets.hex(start + 4, length - 4)};
  }

  /** A packet of the standard, and where it ends. @param {Octets} octets */
  function readPacket(octets) {
    const {length, ...headers} = readHeaders(octets);
    const packet = {...headers, ...readExtended(octets, headers.kind),
      ...readPayload(octets, {...headers, length})};
    return {packet, end: ENDS[headers.kind] + length};
  }

  /**
   * Reads a frame that a station rejects.
   * @param {Uint8Array} octets
   * @returns {Outside | undefined} nothing if the standard doesn't allow the packet either
   */
  function read(octets) {
    if (octets[12] !== 0x89 || octets[13] !== 0x47) return undefined;
    try {
      const {packet, end} = readPacket(new Octets(octets.subarray(PACKET)));
      if (PACKET + end !== octets.length) return undefined;
      const [to, from] = [0, 6].map((at) => toHex(octets.subarray(at, at + 6)));
      return {to, from, ...packet};
    } catch (fault) {
      if (!(fault instanceof Fault)) throw fault;
      return undefined;
    }
  }

  /** What the line of `show` has after the headers. @param {Outside} p */
  function endOf(p) {
    const words = [];
    if (p.number !== undefined && !p.area) words.push('number', p.number);
    if (p.destination) {
      const {address, tst, lat, lon} = p.destination;
      words.push('destination', address, 'tst', tst, 'lat', lat, 'lon', lon);
    }
    if (p.sought) words.push('sought', p.sought);
    if (p.payload === undefined) return words;
    if (p.sourcePort !== undefined) words.push('btp', 'a', p.sourcePort, p.port);
    else if (p.port === undefined) words.push('next', p.next);
    else words.push('port', p.port, 'info', p.info);
    return [...words, p.payload || '-'];
  }

  /** The line that `show --all-kinds` prints of a packet, without its moment and code. */
  function line(p) {
    const {port, ...headers} = p;
    return [geostation.frame.line(headers), ...endOf(p)].join(' ');
  }

  geostation.outside = {read, line};
})(globalThis.geostation ??= {});
