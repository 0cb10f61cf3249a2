//! What stands at fixed places of a frame: read without the rest of it, and without a check.

(function (geostation) {
  'use strict';

  /** By header type, and by that and the sub-type if the types have several kinds. */
  const KINDS = {1: 'beacon', 2: 'guc', 3: 'gac', 4: 'gbc'};
  const KINDS_OF_SUB_TYPES = {0x50: 'shb', 0x51: 'tsb', 0x60: 'ls-request', 0x61: 'ls-reply'};
  /** Where its type stands: behind the Ethernet header and the Basic Header. */
  const TYPE = 19;
  /** Where the address of the source and the port begin, by kind; a beacon has no port. */
  const SOURCE = {beacon: 26, shb: 26, gbc: 30, gac: 30};
  const PORT = {shb: 54, gbc: 70, gac: 70};
  /** The places in packets outside the profile. The location service has no port. */
  const OUTSIDE_SOURCE = {guc: 30, tsb: 30, 'ls-request': 30, 'ls-reply': 30};
  const OUTSIDE_PORT = {guc: 74, tsb: 54};

  /** The kind of the packet in a frame, undefined if it isn't a packet. @param {number} frame */
  function kind(frames, frame) {
    const type = frames.octet(frame, TYPE);
    return KINDS[type >> 4] ?? KINDS_OF_SUB_TYPES[type];
  }

  /** The port that a frame's packet is for, undefined where it is for none. */
  function port(frames, frame) {
    const own = kind(frames, frame);
    const at = PORT[own] ?? OUTSIDE_PORT[own];
    const low = at && frames.octet(frame, at + 1);
    return low === undefined ? undefined : 256 * frames.octet(frame, at) + low;
  }

  /** The number of the address of a frame's source, 0 without one. @param {any} words */
  function source(frames, frame, words) {
    const own = kind(frames, frame);
    const at = SOURCE[own] ?? OUTSIDE_SOURCE[own];
    const octets = frames.octets(frame);
    return octets.length >= at + 8 ? words.numberAt(octets, at, at + 8) : 0;
  }

  geostation.peek = {kind, port, source};
})(globalThis.geostation ??= {});
