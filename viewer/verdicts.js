//! The verdicts on a station of a run or of a capture: which frame each is about, and where it is
//! listed. Record N of a capture that `sim --frames` wrote is the frame that went out after N others, at
//! the time of its event or of its release. A report in which one record is not so is rejected as a
//! whole.

(function (geostation) {
  'use strict';

  const {ReportFault, RESULTS} = geostation.report;
  const SIGNS = {fail: '✗', inconclusive: '?', pass: '✓'};
  const NONE = [];

  /** @typedef {import('./report.js').Verdict} Verdict */

  /** What kind of frame a duty judges. @param {string} duty @returns {'own' | 'received' | 'relay'} */
  function kindOf(duty) {
    const number = Number(duty.slice(1));
    if (number <= 12) return 'own';
    return number === 20 || number === 21 ? 'received' : 'relay';
  }

  /**
   * The frame of each record: the frames in the order in which they went out.
   * @param {import('./run.js').Run} run
   * @throws {ReportFault} if the run does not say when a held frame went out
   */
  function inOrder({frames, held, entries, events: {holds}}) {
    const sent = Array.from({length: frames.length}, (_, frame) => frame)
      .filter((frame) => held.isSent(frame));
    if (holds.length === 0) return sent;
    const places = new Map(sent.map((frame) => {
      const hold = holds.of(frame);
      if (hold < 0) return [frame, entries.ofEvent(frames.giver.values[frame])];
      if (held.notes[hold] >= 0) return [frame, entries.ofNote(held.notes[hold])];
      throw new ReportFault('Stations of this run hold frames, and only notes say for certain when ' +
        'each went out. Make the run with “--notes”.');
    }));
    return sent.sort((a, b) => places.get(a) - places.get(b));
  }

  /** Finds the frames of records. */
  class Matching {
    /**
     * @param {import('./run.js').Run} run @param {string} address of the station under test
     * @param {Verdict[]} verdicts
     */
    constructor(run, address, verdicts) {
      this.run = run;
      this.address = address;
      this.order = inOrder(run);
      this.station = this.find(verdicts);
      if (this.station < 0) this.refuse(`they are on station ${address}, which it doesn’t have`);
    }

    /**
     * The station under test. In a capture it is the sender of the frames that are judged as its
     * own or forwarded ones, whatever its link address is.
     * @param {Verdict[]} verdicts
     */
    find(verdicts) {
      const {address, order, run} = this;
      const known = run.stations.findIndex((station) => station.address === address);
      const first = verdicts.find(({duty}) => kindOf(duty) !== 'received');
      const frame = first && order[first.record];
      return run.isCapture && frame !== undefined ? this.senderOf(frame) : known;
    }

    /** @param {number} frame */
    senderOf(frame) {
      const {events, frames} = this.run;
      return events.station.values[frames.giver.values[frame]];
    }

    /** @param {string} why @returns {never} */
    refuse(why) {
      const {isCapture} = this.run;
      const what = isCapture ? 'The verdicts aren’t on this capture' : 'The verdicts aren’t on this run';
      const advice = isCapture ? ''
        : ' Judge the capture that “sim --frames” wrote together with the run.';
      throw new ReportFault(`${what}: ${why}.${advice}`);
    }

    /** The frame that a verdict judges. @param {Verdict} verdict @throws {ReportFault} */
    frameOf(verdict) {
      const {order, run} = this;
      const {moment, record, others} = verdict;
      const missing = [record, ...others].find((number) => number >= order.length);
      if (missing !== undefined) {
        this.refuse(`they name record ${missing}, and it has ${order.length} frames`);
      }
      const frame = order[record];
      const sent = run.held.digits(frame);
      if (moment !== sent) this.refuse(`record ${record} is at ${moment} ms, that frame at ${sent} ms`);
      this.checkKind(verdict, frame);
      return frame;
    }

    /** Rejects a verdict whose duty does not judge such a frame. @param {Verdict} verdict */
    checkKind({duty, record}, frame) {
      const {address, run, station} = this;
      const sender = this.senderOf(frame);
      const kind = kindOf(duty);
      if ((sender === station) === (kind === 'received')) {
        this.refuse(`${duty} doesn’t judge record ${record}, which station ${run.name(sender)} sent`);
      }
      if (kind === 'received') return;
      const {packet} = geostation.frame.read(run.frames.octets(frame));
      const isCut = run.isCapture && run.events.wordOf(frame) === 'cut';
      const fits = packet && !isCut ? (packet.address === address) === (kind === 'own') : duty === 'D1';
      if (!fits) this.refuse(`${duty} doesn’t judge such a packet as that of record ${record}`);
    }
  }

  /** The place of a result among them, the worst first. @param {Verdict} verdict */
  function rank({result}) {
    return RESULTS.indexOf(result);
  }

  /** Some verdicts, the worst first. @param {Verdict[]} verdicts */
  function sorted(verdicts) {
    return [...verdicts].sort((a, b) => rank(a) - rank(b));
  }

  /** Rising numbers without repetition. @param {Iterable<number>} numbers */
  function rising(numbers) {
    return Int32Array.from(new Set(numbers)).sort();
  }

  class Verdicts {
    /**
     * @param {import('./run.js').Run} run
     * @param {{station: string, verdicts: Verdict[], counts: object}} report
     * @throws {ReportFault} if it is not on this run
     */
    constructor(run, {station, verdicts, counts}) {
      const matching = new Matching(run, station, verdicts);
      this.run = run;
      this.station = matching.station;
      this.order = matching.order;
      this.counts = counts;
      this.listed = verdicts.length;
      /** The verdicts on each frame, the worst first. @type {Map<number, Verdict[]>} */
      this.byFrame = new Map();
      for (const verdict of verdicts) {
        const frame = matching.frameOf(verdict);
        this.byFrame.set(frame, [...this.of(frame), verdict]);
      }
      for (const [frame, own] of this.byFrame) this.byFrame.set(frame, sorted(own));
    }

    /** The verdicts on a frame. @param {number | undefined} frame @returns {Verdict[]} */
    of(frame) {
      return this.byFrame.get(frame) ?? NONE;
    }

    /**
     * Which frames the other records are that a reason names, if their numbers differ.
     * @param {Verdict} verdict
     */
    otherFrames({others}) {
      const named = others.filter((record) => this.order[record] !== record)
        .map((record) => `#${record} is frame ${this.order[record]}`);
      return named.length === 0 ? '' : `; ${named.join(', ')}`;
    }

    /** The worst result of a frame. @param {number} frame @returns {string | undefined} */
    worst(frame) {
      return this.of(frame)[0]?.result;
    }

    /**
     * The verdicts at an event: on the frame that was sent at once, and on one that the station
     * received, whether it had to forward it.
     * @param {number} index
     */
    ofEvent(index) {
      const {run: {events, held}, station} = this;
      const sent = events.sent.values[index];
      const own = sent >= 0 && held.fate(sent) === 'sent' ? this.of(sent) : NONE;
      if (!events.isDelivery(index) || events.station.values[index] !== station) return own;
      const received = this.of(events.frame.values[index])
        .filter(({duty}) => kindOf(duty) === 'received');
      return received.length === 0 ? own : sorted([...received, ...own]);
    }

    /** The verdicts at a note: on the frame that was released. @param {number} note */
    ofNote(note) {
      const {notes} = this.run;
      return notes.is(note, 'released') ? this.of(notes.frame.values[note]) : NONE;
    }

    /** The events and notes with a fail. @returns {{events: Int32Array, notes: Int32Array}} */
    fails() {
      const {byFrame, run: {deliveries, events, frames, held}} = this;
      const failed = [...byFrame.keys()].filter((frame) => this.worst(frame) === 'fail');
      const hasFail = (index) => this.ofEvent(index)[0]?.result === 'fail';
      const near = failed.flatMap((frame) =>
        [frames.giver.values[frame], ...deliveries.of(frame)]);
      const notes = failed.map((frame) => events.holds.of(frame)).filter((hold) => hold >= 0)
        .map((hold) => held.notes[hold]);
      return {events: rising(near.filter(hasFail)), notes: rising(notes)};
    }
  }

  /** A verdict with its reason. @param {Verdict} verdict */
  function words({result, duty, reason, rule, needs}) {
    const clause = rule === undefined ? '' : ` (${rule})`;
    const more = needs.length === 0 ? '' : ` (needs ${needs.join(', ')})`;
    return `${SIGNS[result]} ${result} ${duty}: ${reason}${clause}${more}`;
  }

  /**
   * Some verdicts in a line: the worst ones, of which the first with its reason.
   * @param {Verdict[]} verdicts the worst first
   */
  function line(verdicts) {
    const [first] = verdicts;
    const same = verdicts.filter(({result}) => result === first.result);
    if (first.result === 'pass') return `${SIGNS.pass} pass ${same.map(({duty}) => duty).join(', ')}`;
    const others = same.slice(1).map(({duty}) => duty);
    return words(first) + (others.length === 0 ? '' : `; ${first.result} ${others.join(', ')}`);
  }

  /** Counts in words. @param {import('./report.js').VerdictCounts} counts */
  function countWords({pass, fail, inconclusive}) {
    const {grouped} = geostation.dom;
    return `${grouped(pass)} pass, ${grouped(fail)} fail, ${grouped(inconclusive)} inconclusive`;
  }

  geostation.verdicts = {Verdicts, SIGNS, words, line, countWords};
})(globalThis.geostation ??= {});
