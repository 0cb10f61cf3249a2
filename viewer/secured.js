//! Secured frames: the packet in the plain part of the message (IEEE 1609.2, read as far as the header
//! info), or the first fault, by the codes that the program prints. No signature is verified.

(function (geostation) {
  'use strict';

  const {Fault} = geostation.frame;

  /**
   * @typedef {object} Security
   * @property {boolean} isSigned false for unsecured data in a secured packet
   * @property {number} [psid] of signed data
   * @property {bigint} [generated] microseconds of TAI since 2004-01-01, if they are there
   */

  const PACKET = 14;
  const MESSAGE = 18;
  const LONGEST = 2310;
  const UNSECURED_NEXT = 0x11;

  /** The octets of a packet from a place on. Each call takes what it returns. */
  class Message {
    /** @param {Uint8Array} packet */
    constructor(packet) {
      this.packet = packet;
      this.at = MESSAGE - PACKET;
    }

    /** @param {number} length */
    octets(length) {
      const end = this.at + length;
      if (end > this.packet.length) throw new Fault('E2', this.packet.length);
      const octets = this.packet.subarray(this.at, end);
      this.at = end;
      return octets;
    }

    /** A number of so many octets. @param {number} length */
    number(length) {
      return this.octets(length).reduce((sum, octet) => sum * 256 + octet, 0);
    }

    /** An octet that has to be right. @param {(octet: number) => boolean} isRight */
    octet(isRight) {
      const at = this.at;
      const octet = this.number(1);
      if (!isRight(octet)) throw new Fault('E1', at);
      return octet;
    }

    /** So many octets as the length before them says. */
    counted() {
      const first = this.octet((octet) => octet <= 0x82 && octet !== 0x80);
      return this.octets(first < 0x80 ? first : this.number(first - 0x80));
    }
  }

  /** The plain part, and what is known of it. @param {Message} message */
  function readMessage(message) {
    message.octet((octet) => octet === 3);
    const isSigned = message.octet((octet) => octet === 0x80 || octet === 0x81) === 0x81;
    if (!isSigned) return {plain: message.counted(), security: {isSigned}};
    message.octet((octet) => octet < 0x80);
    for (const wanted of [0x40, 3, 0x80]) message.octet((octet) => octet === wanted);
    const plain = message.counted();
    return {plain, security: {isSigned, ...readInfo(message)}};
  }

  /** The header info, as far as it is read. @param {Message} message */
  function readInfo(message) {
    const isTimed = (message.number(1) & 0x40) !== 0;
    const psid = message.number(message.octet((octet) => octet >= 1 && octet <= 4));
    if (!isTimed) return {psid};
    const generated = BigInt(`0x${geostation.frame.toHex(message.octets(8))}`);
    return {psid, generated};
  }

  /** The Basic Header of a secured packet, and that a message follows. @param {Uint8Array} packet */
  function checkBasic(packet) {
    const octet = (at) => {
      if (at >= packet.length) throw new Fault('L5 G1', packet.length);
      return packet[at];
    };
    if (octet(1) !== 0) throw new Fault('L5 G4', 1);
    if (octet(3) === 0) throw new Fault('L5 G5', 3);
    octet(4);
  }

  /** The inner frame: next header 1, and the plain part. */
  function innerOf(frame, plain) {
    const inner = new Uint8Array(MESSAGE + plain.length);
    inner.set(frame.subarray(0, MESSAGE));
    inner[PACKET] = UNSECURED_NEXT;
    inner.set(plain, MESSAGE);
    return inner;
  }

  /** Whether octets are read as a secured frame. @param {Uint8Array} octets */
  function isSecured(octets) {
    return octets[12] === 0x89 && octets[13] === 0x47 && octets[14] === 0x12;
  }

  /**
   * Reads a frame, a secured one by its plain part.
   * @param {Uint8Array} octets
   * @returns {{packet: import('./frame.js').Packet, security?: Security} |
   *   {fault: string, inner?: Uint8Array, security?: Security}} with the fault of the frame inside,
   *   that frame
   */
  function read(octets) {
    if (!isSecured(octets)) return geostation.frame.read(octets);
    if (octets.length > LONGEST) return {fault: 'L3'};
    try {
      const packet = octets.subarray(PACKET);
      checkBasic(packet);
      const {plain, security} = readMessage(new Message(packet));
      const inner = innerOf(octets, plain);
      const inside = geostation.frame.readOfAnyLength(inner);
      if (inside.fault) return {fault: inside.fault.replace('L5', 'L6'), inner, security};
      return {packet: inside.packet, security};
    } catch (fault) {
      if (!(fault instanceof Fault)) throw fault;
      return {fault: fault.message};
    }
  }

  /** What the panel says of it. @param {Security} security */
  function words({isSigned, psid, generated}) {
    if (!isSigned) return 'unsecured data in a secured packet';
    const time = generated === undefined ? 'no generation time' : `generated at ${generated} µs`;
    return `signed, not verified: PSID ${psid}, ${time}`;
  }

  geostation.secured = {read, words};
})(globalThis.geostation ??= {});
