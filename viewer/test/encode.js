//! Frames for the samples, written octet by octet from the layout of EN 302 636-4-1, apart from
//! the page's own reader.

'use strict';

const SHAPES = {circle: 0, rectangle: 1, ellipse: 2};
const TYPES = {beacon: 1, gac: 3, gbc: 4, shb: 5};

/** @param {number} value @param {number} octets @returns {string} highest octet first */
function hex(value, octets) {
  const whole = BigInt.asUintN(8 * octets, BigInt(value));
  return whole.toString(16).padStart(2 * octets, '0');
}

/** The long position vector. */
function vector({address, tst, lat, lon, pai, speed, heading}) {
  const motion = (pai ? 0x8000 : 0) | (speed & 0x7fff);
  return address + hex(tst, 4) + hex(lat, 4) + hex(lon, 4) + hex(motion, 2) + hex(heading, 2);
}

/** Basic and Common Header. */
function headers({kind, lifetime, left, max, tc, area}, length) {
  const next = kind === 'beacon' ? '00' : '20';
  const subtype = area ? SHAPES[area.shape] : 0;
  const type = TYPES[kind].toString(16) + subtype.toString(16);
  return `1100${hex(lifetime, 1)}${hex(left, 1)}${next}${type}${hex(tc, 1)}80${hex(length, 2)}` +
    `${hex(max, 1)}00`;
}

/** An area and the reserved octets behind it. */
function areaOctets({lat, lon, a, b, angle}) {
  return hex(lat, 4) + hex(lon, 4) + hex(a, 2) + hex(b, 2) + hex(angle, 2) + '0000';
}

/**
 * The octets of a frame, in hexadecimal.
 * @param {string} to link address @param {string} from link address @param {object} packet
 */
function frame(to, from, packet) {
  const start = to + from + '8947';
  if (packet.kind === 'beacon') return start + headers(packet, 0) + vector(packet.source);
  const payload = hex(packet.port, 2) + hex(packet.info, 2) + packet.payload;
  const common = start + headers(packet, payload.length / 2);
  if (packet.kind === 'shb') return common + vector(packet.source) + '00000000' + payload;
  const numbered = hex(packet.number, 2) + '0000';
  return common + numbered + vector(packet.source) + areaOctets(packet.area) + payload;
}

module.exports = {frame};
