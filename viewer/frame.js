//! Frames: an Ethernet header and a GeoNetworking packet, read from octets in the order of the
//! wire. The first wrong field gives the fault, by the codes that the program prints.

(function (geostation) {
  'use strict';

  /**
   * @typedef {object} Packet
   * @property {string} to target link address, 12 hexadecimal digits
   * @property {string} from source link address
   * @property {'beacon' | 'shb' | 'gbc' | 'gac'} kind
   * @property {number} lifetime its octet: 6 bits multiplier, 2 bits base
   * @property {number} left hops left
   * @property {number} max hops at most
   * @property {number} trafficClass
   * @property {number} mobile 0 or 1
   * @property {string} address of the source, 16 hexadecimal digits
   * @property {number} tst time stamp, in milliseconds modulo 2^32
   * @property {number} lat of the source
   * @property {number} lon of the source
   * @property {number} pai 1 where the place is accurate
   * @property {number} speed in 0.01 m/s
   * @property {number} heading in 0.1 degree
   * @property {number} [number] sequence number, of a gbc and a gac
   * @property {import('./geo.js').Area} [area] of a gbc and a gac
   * @property {number} [port] of all but a beacon
   * @property {number} [info]
   * @property {string} [payload] hexadecimal, without the BTP-B header
   */

  const HEADER = 14;
  const LONGEST = 1468;
  const SHAPES = ['circle', 'rectangle', 'ellipse'];
  const KINDS = {1: 'beacon', 3: 'gac', 4: 'gbc', 5: 'shb'};
  const BASES = [50, 1000, 10000, 100000];
  /** The two digits of each octet. */
  const PAIRS = Array.from({length: 256}, (_, octet) => octet.toString(16).padStart(2, '0'));

  /** What is wrong with a packet, and at which octet of it. */
  class Fault extends Error {
    /** @param {string} code @param {number} at */
    constructor(code, at) {
      super(`${code} at ${at}`);
    }
  }

  /** A packet's octets; each read says where the input ends, where it ends too early. */
  class Octets {
    /** @param {Uint8Array} octets */
    constructor(octets) {
      this.octets = octets;
      this.view = new DataView(octets.buffer, octets.byteOffset, octets.byteLength);
    }

    /** @param {number} at @param {number} length */
    need(at, length) {
      if (at + length > this.octets.length) throw new Fault('G1', this.octets.length);
    }

    /** @param {number} at */
    u8(at) {
      this.need(at, 1);
      return this.octets[at];
    }

    /** @param {number} at */
    u16(at) {
      this.need(at, 2);
      return this.view.getUint16(at);
    }

    /** @param {number} at */
    u32(at) {
      this.need(at, 4);
      return this.view.getUint32(at);
    }

    /**
     * A coordinate of at most `limit` to either side.
     * @param {number} at @param {number} limit @param {string} code
     */
    coordinate(at, limit, code) {
      this.need(at, 4);
      const value = this.view.getInt32(at);
      check(Math.abs(value) <= limit, code, at);
      return value;
    }

    /** @param {number} at @param {number} length */
    hex(at, length) {
      this.need(at, length);
      return toHex(this.octets.subarray(at, at + length));
    }
  }

  /** @param {boolean} holds @param {string} code @param {number} at */
  function check(holds, code, at) {
    if (!holds) throw new Fault(code, at);
  }

  /** @param {Uint8Array} octets */
  function toHex(octets) {
    let text = '';
    for (const octet of octets) text += PAIRS[octet];
    return text;
  }

  /** The octets of hexadecimal text, undefined if it isn't such text. @param {string} text */
  function fromHex(text) {
    if (text.length % 2 !== 0 || !/^[0-9a-fA-F]*$/.test(text)) return undefined;
    const octet = (_, i) => parseInt(text.slice(2 * i, 2 * i + 2), 16);
    return Uint8Array.from({length: text.length / 2}, octet);
  }

  /** Basic and Common Header. @param {Octets} octets */
  function readHeaders(octets) {
    check(octets.u8(0) >> 4 === 1, 'G2', 0);
    check((octets.u8(0) & 15) === 1, 'G3', 0);
    check(octets.u8(1) === 0, 'G4', 1);
    const lifetime = octets.u8(2);
    const left = octets.u8(3);
    check(left !== 0, 'G5', 3);
    const next = octets.u8(4) >> 4;
    check(next === 0 || next === 2, 'G6', 4);
    check((octets.u8(4) & 15) === 0, 'G4', 4);
    const type = octets.u8(5) >> 4;
    check(next === 0 ? type === 1 : type >= 3 && type <= 5, 'G7', 5);
    const hasArea = type === 3 || type === 4;
    const subtype = octets.u8(5) & 15;
    check(subtype <= (hasArea ? 2 : 0), 'G8', 5);
    const trafficClass = octets.u8(6);
    check((octets.u8(7) & 127) === 0, 'G4', 7);
    const length = octets.u16(8);
    check(type === 1 ? length === 0 : length >= 4 && length <= 1398, 'G10', 8);
    const max = octets.u8(10);
    check(left <= max, 'G9', 10);
    check(octets.u8(11) === 0, 'G4', 11);
    const mobile = octets.u8(7) >> 7;
    return {kind: KINDS[type], subtype, hasArea, length, lifetime, left, max, trafficClass, mobile};
  }

  /** The long position vector at octet `p`. @param {Octets} octets @param {number} p */
  function readVector(octets, p) {
    const address = octets.hex(p, 8);
    check((octets.u8(p + 2) & 1) === 0, 'G11', p);
    const tst = octets.u32(p + 8);
    const lat = octets.coordinate(p + 12, 900000000, 'G11');
    const lon = octets.coordinate(p + 16, 1800000000, 'G11');
    const motion = octets.u16(p + 20);
    const speed = ((motion & 0x7fff) ^ 0x4000) - 0x4000;
    return {address, tst, lat, lon, pai: motion >> 15, speed, heading: octets.u16(p + 22)};
  }

  /** @param {Octets} octets @param {number} subtype */
  function readArea(octets, subtype) {
    const isCircle = subtype === 0;
    const lat = octets.coordinate(40, 900000000, 'G12');
    const lon = octets.coordinate(44, 1800000000, 'G12');
    const a = octets.u16(48);
    check(a !== 0, 'G12', 48);
    const b = octets.u16(50);
    check((b === 0) === isCircle, 'G12', 50);
    const angle = octets.u16(52);
    check(isCircle ? angle === 0 : angle <= 359, 'G12', 52);
    check(octets.u16(54) === 0, 'G4', 54);
    return {shape: SHAPES[subtype], lat, lon, a, b, angle};
  }

  /** A packet, and where it ends. @param {Octets} octets */
  function readPacket(octets) {
    const {subtype, hasArea, length, ...packet} = readHeaders(octets);
    if (packet.kind === 'beacon') return {packet: {...packet, ...readVector(octets, 12)}, end: 36};
    let start = 40;
    if (hasArea) {
      start = 56;
      packet.number = octets.u16(12);
      check(octets.u16(14) === 0, 'G4', 14);
      Object.assign(packet, readVector(octets, 16));
      packet.area = readArea(octets, subtype);
    } else {
      Object.assign(packet, readVector(octets, 12));
      octets.need(36, 4);
    }
    octets.need(start, length);
    packet.port = octets.u16(start);
    packet.info = octets.u16(start + 2);
    packet.payload = octets.hex(start + 4, length - 4);
    return {packet, end: start + length};
  }

  /**
   * Reads a frame.
   * @param {Uint8Array} octets
   * @returns {{packet: Packet} | {fault: string}} the packet with the link addresses, or the code
   *   of what is wrong with it
   */
  function read(octets) {
    if (octets.length < HEADER) return {fault: 'L1'};
    if (octets[12] !== 0x89 || octets[13] !== 0x47) return {fault: 'L2'};
    return octets.length > LONGEST ? {fault: 'L3'} : readOfAnyLength(octets);
  }

  /** Reads a frame of this type, whatever its length is. @param {Uint8Array} octets */
  function readOfAnyLength(octets) {
    try {
      const {packet, end} = readPacket(new Octets(octets.subarray(HEADER)));
      if (HEADER + end < octets.length) return {fault: 'L4'};
      const [to, from] = [0, 6].map((at) => toHex(octets.subarray(at, at + 6)));
      return {packet: {to, from, ...packet}};
    } catch (fault) {
      if (!(fault instanceof Fault)) throw fault;
      return {fault: `L5 ${fault.message}`};
    }
  }

  /** Reads a frame of hexadecimal text. @param {string} text */
  function decode(text) {
    const octets = fromHex(text);
    return octets === undefined ? {fault: 'not hexadecimal'} : read(octets);
  }

  /** How long a packet lives, in milliseconds. @param {number} octet */
  function lifetimeMillis(octet) {
    return (octet >> 2) * BASES[octet & 3];
  }

  /** The line that `show` prints of a packet, without its moment. @param {Packet} p */
  function line(p) {
    const words = [p.from, p.to, p.kind, p.address, 'tst', p.tst, 'lat', p.lat, 'lon', p.lon];
    words.push('pai', p.pai, 'speed', p.speed, 'heading', p.heading, 'lt', PAIRS[p.lifetime]);
    words.push('tc', PAIRS[p.trafficClass], 'mobile', p.mobile, 'hops', `${p.left}/${p.max}`);
    if (p.area) {
      const {shape, lat, lon, a, b, angle} = p.area;
      words.push('number', p.number, shape, lat, lon, a, b, angle);
    }
    if (p.port !== undefined) words.push('port', p.port, 'info', p.info, p.payload || '-');
    return words.join(' ');
  }

  geostation.frame = {Fault, Octets, read, readOfAnyLength, decode, line, lifetimeMillis, toHex,
    fromHex};
})(globalThis.geostation ??= {});
