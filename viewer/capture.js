//! A capture as a run: record N is event N, at which its sender sends frame N. Senders are known by
//! their link addresses, and their positions by their own packets. Who received a frame is not known.

(function (geostation) {
  'use strict';

  const {RECORD, RESULT, Row} = geostation.events;
  const {Groups} = geostation.columns;
  const {frame: frames, links, outside, records, run: runs, secured} = geostation;
  /** The name of the sender of a record without link addresses. */
  const UNKNOWN = 'unknown';

  /** @typedef {import('./run.js').Run} Run */

  /** The packet in a frame, of any kind of the standard, undefined without one. */
  function packetOf(octets) {
    if (octets[12] !== 0x89 || octets[13] !== 0x47) return undefined;
    const {packet, inner} = secured.read(octets);
    return packet ?? outside.read(inner ?? octets);
  }

  /** Puts the records of a capture into a run. */
  class Writer {
    constructor() {
      this.run = new runs.Run();
      this.run.isCapture = true;
      /** The station of each link address. @type {Map<string, number>} */
      this.numbers = new Map();
      /** The station of each event with a packet of its own, -1 of others. @type {number[]} */
      this.placed = [];
    }

    /** @param {import('./records.js').CaptureRecord} record */
    take({moment, octets: whole, link, isCut}) {
      const {events, frames: kept} = this.run;
      const frame = link === undefined ? whole : links.frameOf(link, whole);
      const octets = frame ?? whole;
      const packet = isCut || !frame ? undefined : packetOf(frame);
      const row = new Row();
      row.moment = Number(moment);
      if (!Number.isSafeInteger(row.moment)) events.exact.set(events.length, String(moment));
      Object.assign(row, {do: RECORD, result: RESULT.sent, sent: kept.length});
      const isOfLink = link === undefined || links.isKnown(link);
      row.word = events.words.number(isCut && isOfLink ? 'cut' : packet?.kind ?? 'unread');
      const hasAddresses = frame !== undefined && frame.length >= 12;
      row.station = this.stationOf(hasAddresses ? frames.toHex(frame.subarray(6, 12)) : UNKNOWN);
      this.place(row, packet);
      kept.push(events.length, octets);
      events.push(row);
    }

    /** The station with a link address, which is made if it is new. @param {string} mac */
    stationOf(mac) {
      const known = this.numbers.get(mac);
      if (known !== undefined) return known;
      const {stations} = this.run;
      this.numbers.set(mac, stations.length);
      stations.push({address: mac, id: mac, lat: 0, lon: 0, born: Infinity});
      return stations.length - 1;
    }

    /** Takes the position of the sender from a packet of its own. @param {any} row */
    place(row, packet) {
      const station = this.run.stations[row.station];
      const isOwn = packet !== undefined && packet.address.slice(4) === station.id;
      this.placed.push(isOwn ? row.station : -1);
      if (!isOwn) return;
      const {address, lat, lon} = packet;
      Object.assign(row, {lat, lon});
      const born = this.run.events.length;
      if (station.born === Infinity) Object.assign(station, {address, lat, lon, born});
    }

    /** @returns {Run} */
    end() {
      const {run, placed} = this;
      const {lat, lon} = run.stations.find(({born}) => born !== Infinity) ?? {lat: 0, lon: 0};
      for (const station of run.stations) {
        // It is never drawn, and makes the map no larger.
        if (station.born === Infinity) Object.assign(station, {lat, lon});
      }
      run.end();
      run.moves = new Groups(placed, run.stations.length);
      return run;
    }
  }

  /**
   * Reads a capture up to what can't be read.
   * @param {Uint8Array} octets
   * @returns {{run: Run, fault?: string}} the records, and why there are no more of them
   * @throws {import('./records.js').CaptureFault} if it has no record
   */
  function read(octets) {
    const writer = new Writer();
    try {
      for (const record of records.of(octets)) writer.take(record);
    } catch (fault) {
      if (!(fault instanceof records.CaptureFault) || writer.placed.length === 0) throw fault;
      return {run: writer.end(), fault: fault.message};
    }
    return {run: writer.end()};
  }

  geostation.capture = {read};
})(globalThis.geostation ??= {});
