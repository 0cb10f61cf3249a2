//! The clock: how a run is played by its own time or by events, where an event lies along the
//! slider, and the event that the page's address names. Numbers alone; `timeline.js` is the page's.

(function (geostation) {
  'use strict';

  const {countUpTo} = geostation.columns;
  /** How many steps the slider has. */
  const STEPS = 100000;

  /**
   * @typedef {object} Speed
   * @property {'time' | 'events'} by the run's own time, or events a second
   * @property {number} rate milliseconds of the run in a millisecond, or events in a second
   */

  /** The speed that a choice says: `x0.1` or `8`. @param {string} choice @returns {Speed} */
  function speed(choice) {
    if (choice.startsWith('x')) return {by: 'time', rate: Number(choice.slice(1))};
    return {by: 'events', rate: Number(choice)};
  }

  /** How long a run takes, in milliseconds. @param {Float64Array} times of its events, rising */
  function span(times) {
    return times.length === 0 ? 0 : times[times.length - 1] - times[0];
  }

  /**
   * Where an event lies along the slider, from 0 to 1: by time, but by events where they are played
   * so or all are of one moment.
   * @param {Float64Array} times @param {number} at @param {Speed} speed
   */
  function fraction(times, at, {by}) {
    if (times.length < 2) return 0;
    const whole = span(times);
    if (by === 'events' || whole === 0) return at / (times.length - 1);
    return (times[at] - times[0]) / whole;
  }

  /**
   * Where a moment lies along the slider, from 0 to 1.
   * @param {Float64Array} times @param {number} moment @param {Speed} speed
   */
  function fractionOf(times, moment, speed) {
    if (times.length < 2) return 0;
    const whole = span(times);
    const part = speed.by === 'events' || whole === 0
      ? countUpTo(times, moment) / times.length : (moment - times[0]) / whole;
    return Math.max(0, Math.min(1, part));
  }

  /**
   * The event at a place of the slider: the last one up to that moment, or that many of all.
   * @param {Float64Array} times @param {number} part from 0 to 1 @param {Speed} speed
   */
  function eventAt(times, part, speed) {
    if (times.length === 0) return 0;
    const whole = span(times);
    if (speed.by === 'events' || whole === 0) return Math.round(part * (times.length - 1));
    // A step of the slider is some of the run's time: the event whose place it shows is meant.
    const moment = times[0] + whole * (part + 0.5 / STEPS);
    return Math.max(0, countUpTo(times, moment) - 1);
  }

  /** The least of 1, 2 and 5 times a power of ten that is not below a length, at least 1. */
  function roundStep(length) {
    const power = 10 ** Math.max(0, Math.floor(Math.log10(length)));
    return [1, 2, 5, 10].map((times) => times * power).find((step) => step >= length) ?? 1;
  }

  /** A moment in seconds. @param {number} moment in milliseconds @param {number} digits */
  function seconds(moment, digits) {
    return `${(moment / 1000).toFixed(digits)} s`;
  }

  /**
   * The marks of the axis below the slider: where each lies, from 0 to 1, and its time.
   * @param {Float64Array} times @param {Speed} speed @param {number} most marks there is room for
   * @returns {{part: number, text: string}[]}
   */
  function ticks(times, speed, most) {
    if (times.length < 2 || most < 1) return [];
    const [first, last, whole] = [times[0], times[times.length - 1], span(times)];
    if (speed.by === 'events' || whole === 0) {
      const count = Math.max(1, Math.min(Math.floor(most) - 1, times.length - 1));
      return Array.from({length: count + 1}, (_, i) => {
        const at = Math.round((i * (times.length - 1)) / count);
        return {part: fraction(times, at, speed), text: seconds(times[at], 3)};
      });
    }
    const step = roundStep(whole / most);
    const digits = Math.max(0, Math.ceil(3 - Math.log10(step)));
    const found = [];
    for (let moment = step * Math.ceil(first / step); moment <= last; moment += step) {
      found.push({part: fractionOf(times, moment, speed), text: seconds(moment, digits)});
    }
    return found;
  }

  /** What plays: it is moved on by the milliseconds that went by, and tells the event. */
  class Clock {
    /** @param {Float64Array} times @param {number} at the event it starts from */
    constructor(times, at) {
      this.times = times;
      this.at = at;
      this.moment = times[at] ?? 0;
      this.owed = 0;
    }

    /**
     * @param {number} millis that went by @param {Speed} speed
     * @returns {number} how many events further it is
     */
    advance(millis, {by, rate}) {
      if (by === 'events') {
        this.owed += (millis / 1000) * rate;
        const steps = Math.floor(this.owed);
        this.owed -= steps;
        this.set(this.at + steps);
        return steps;
      }
      this.moment += millis * rate;
      const to = Math.max(this.at, countUpTo(this.times, this.moment) - 1);
      const steps = to - this.at;
      this.at = to;
      return steps;
    }

    /** Goes to an event. @param {number} at */
    set(at) {
      if (at === this.at) return;
      this.at = Math.max(0, Math.min(at, this.times.length - 1));
      this.moment = this.times[this.at] ?? 0;
    }
  }

  /** The event that an address names, as `#event=104`. @param {string} hash */
  function eventOf(hash) {
    const digits = /^#event=(\d{1,9})$/.exec(hash)?.[1];
    return digits === undefined ? undefined : Number(digits);
  }

  geostation.clock = {STEPS, speed, span, fraction, fractionOf, eventAt, ticks, Clock, eventOf};
})(globalThis.geostation ??= {});
