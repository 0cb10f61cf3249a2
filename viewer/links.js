//! Link layers: the frame in a record of a capture as Ethernet would carry it, from Ethernet with tags,
//! IEEE 802.11, radiotap, and Linux cooked captures. The rules are those of the program
//! (docs/formats/capture.md).

(function (geostation) {
  'use strict';

  const {read} = geostation.frame;
  const [ETHERNET, IEEE80211, RADIOTAP, COOKED, COOKED2] = [1, 105, 127, 113, 276];
  const TAGS = [0x8100, 0x88a8, 0x9100];
  /** Ethernet pads shorter frames up to so many octets. */
  const PADDED = 60;
  const SNAP = [0xaa, 0xaa, 3, 0, 0, 0];

  /** @param {Uint8Array} octets @param {number} at */
  function u16(octets, at) {
    return 256 * octets[at] + octets[at + 1];
  }

  /** Some parts, one after the other. @param {...ArrayLike<number>} parts */
  function joined(...parts) {
    const whole = new Uint8Array(parts.reduce((sum, {length}) => sum + length, 0));
    let at = 0;
    for (const part of parts) {
      whole.set(part, at);
      at += part.length;
    }
    return whole;
  }

  /** Whether there are octets after the packet of a frame. @param {Uint8Array} octets */
  function isLong(octets) {
    return read(octets).fault === 'L4';
  }

  /** A frame without the zeros with which Ethernet padded it. @param {Uint8Array} octets */
  function unpadded(octets) {
    if (octets.length > PADDED) return octets;
    for (let end = octets.length; end > 14; end -= 1) {
      if (!isLong(octets.subarray(0, end))) return octets.subarray(0, end);
      if (octets[end - 1] !== 0) break;
    }
    return octets;
  }

  /** @param {Uint8Array} octets */
  function ofEthernet(octets) {
    let at = 12;
    for (let tags = 0; tags < 2 && TAGS.includes(u16(octets, at)); tags += 1) at += 4;
    if (octets.length < at + 2) return undefined;
    return unpadded(at === 12 ? octets : joined(octets.subarray(0, 12), octets.subarray(at)));
  }

  /** The addresses of the destination and the source of a data frame. @param {Uint8Array} octets */
  function addresses(octets) {
    const address = (at) => octets.subarray(at, at + 6);
    const [toSystem, fromSystem] = [octets[1] & 1, octets[1] & 2];
    const source = toSystem ? (fromSystem ? address(24) : address(10))
      : address(fromSystem ? 16 : 10);
    return [address(toSystem ? 16 : 4), source];
  }

  /**
   * A data frame that is whole and not protected.
   * @param {Uint8Array} octets @param {boolean} [isAligned] whether its header is padded
   */
  function ofIeee80211(octets, isAligned = false) {
    const [control, flags] = octets;
    const isQos = control === 0x88;
    if (!(control === 0x08 || isQos) || (flags & 0x44) !== 0) return undefined;
    const base = (flags & 3) === 3 ? 30 : 24;
    const length = base + (isQos ? 2 + (flags & 0x80 ? 4 : 0) : 0);
    if (isQos && (octets[base] & 0x80) !== 0) return undefined;
    const at = isAligned ? 4 * Math.ceil(length / 4) : length;
    if (octets.length < at + 8 || SNAP.some((octet, i) => octets[at + i] !== octet)) return undefined;
    return joined(...addresses(octets), octets.subarray(at + 6));
  }

  /** A frame without its check sequence, if it is valid only without it. @param {Uint8Array} [frame] */
  function unchecked(frame) {
    if (frame === undefined || !isLong(frame)) return frame;
    const shorter = frame.subarray(0, frame.length - 4);
    return isLong(shorter) ? frame : shorter;
  }

  /** The octet of flags in a radiotap header, 0 without it. @param {DataView} view */
  function flagsOf(view, length) {
    const present = view.getUint32(4, true);
    let at = 8;
    for (let word = present; word & 0x80000000 && at + 4 <= length; at += 4) {
      word = view.getUint32(at, true);
    }
    if (present & 1) at = 8 * Math.ceil(at / 8) + 8;
    if (!(present & 2)) return 0;
    return at < length ? view.getUint8(at) : undefined;
  }

  /** @param {Uint8Array} octets */
  function ofRadiotap(octets) {
    if (octets.length < 8 || octets[0] !== 0) return undefined;
    const view = new DataView(octets.buffer, octets.byteOffset, octets.byteLength);
    const length = view.getUint16(2, true);
    if (length < 8 || length > octets.length) return undefined;
    const flags = flagsOf(view, length);
    if (flags === undefined) return undefined;
    const isAligned = (flags & 0x20) !== 0;
    if ((flags & 0x10) === 0) return unchecked(ofIeee80211(octets.subarray(length), isAligned));
    return ofIeee80211(octets.subarray(length, Math.max(length, octets.length - 4)), isAligned);
  }

  /** A Linux cooked capture, where its parts are. */
  function ofCooked(octets, {size, type, length, address, protocol}) {
    if (octets.length < size || length !== 6) return undefined;
    const target = Array(6).fill(type === 1 || type === 2 ? 0xff : 0);
    return unpadded(joined(target, octets.subarray(address, address + 6),
      octets.subarray(protocol, protocol + 2), octets.subarray(size)));
  }

  /**
   * The frame in a record, undefined if its link layer has no frame.
   * @param {number} link the number of the link layer @param {Uint8Array} octets
   * @returns {Uint8Array | undefined}
   */
  function frameOf(link, octets) {
    if (link === ETHERNET) return ofEthernet(octets);
    if (link === IEEE80211) return unchecked(ofIeee80211(octets));
    if (link === RADIOTAP) return ofRadiotap(octets);
    if (link === COOKED) {
      return ofCooked(octets, {size: 16, type: u16(octets, 0), length: u16(octets, 4), address: 6,
        protocol: 14});
    }
    if (link === COOKED2) {
      return ofCooked(octets, {size: 20, type: octets[10], length: octets[11], address: 12,
        protocol: 0});
    }
    return undefined;
  }

  /** Whether frames are read from a link layer. @param {number} link */
  function isKnown(link) {
    return [ETHERNET, IEEE80211, RADIOTAP, COOKED, COOKED2].includes(link);
  }

  geostation.links = {frameOf, isKnown, ETHERNET};
})(globalThis.geostation ??= {});
