//! The strip under the timeline: frames per second as bars, the share of busy time as a line, and
//! below them the axis of the time.

(function (geostation) {
  'use strict';

  const {byId} = geostation.dom;
  const {clock, columns} = geostation;
  /** The height of the labels above the bars, and the size of their letters, in pixels. */
  const [LABELS, LETTERS] = [13, 10.5];
  /** The height of the axis, of a mark on it, and the least room between two, in pixels. */
  const [AXIS, MARK, APART] = [17, 4, 70];

  class Strip {
    constructor() {
      this.canvas = byId('strip');
      this.times = new Float64Array(0);
      this.load = undefined;
      new ResizeObserver(() => this.draw()).observe(this.canvas);
    }

    /**
     * @param {Float64Array} times of the run's events
     * @param {{width: number, bins: import('./load.js').Bin[]} | undefined} load
     * @param {import('./clock.js').Speed} speed
     * @param {string} [who] the station whose load it is, of all without it
     */
    show(times, load, speed, who) {
      Object.assign(this, {times, load, speed, who});
      this.draw();
    }

    /** The greatest frames per second and share, which are the strip's full height. */
    get tops() {
      const {bins, width} = this.load;
      const frames = bins.reduce((most, bin) => Math.max(most, bin.frames), 0);
      return {frames: (1000 * frames) / width,
        busy: bins.reduce((most, bin) => Math.max(most, bin.most), 0)};
    }

    draw() {
      const {canvas} = this;
      const dense = window.devicePixelRatio || 1;
      const {clientWidth: width, clientHeight: height} = canvas;
      canvas.width = Math.round(width * dense);
      canvas.height = Math.round(height * dense);
      if (!this.load || width === 0) return;
      const context = canvas.getContext('2d');
      context.setTransform(dense, 0, 0, dense, 0, 0);
      const style = getComputedStyle(document.documentElement);
      this.drawBars(context, width, height - AXIS, style);
      this.drawLine(context, width, height - AXIS, style);
      this.drawAxis(context, width, height - AXIS, style);
      this.label(context, width, style);
    }

    /** @param {number} base where the bars stand */
    drawBars(context, width, base, style) {
      const {frames} = this.tops;
      context.fillStyle = style.getPropertyValue('--duplicate');
      for (const bin of this.load.bins) {
        const [from, to] = this.ends(bin, width);
        const part = (1000 * bin.frames) / this.load.width / (frames || 1);
        const tall = (base - LABELS) * part;
        context.fillRect(from, base - tall, Math.max(1, to - from - 0.5), tall);
      }
    }

    /** The busy share, as steps. Between bins that are apart it is at the base. */
    drawLine(context, width, base, style) {
      const {busy} = this.tops;
      context.strokeStyle = style.getPropertyValue('--sender');
      context.lineWidth = 1.5;
      context.beginPath();
      const floor = base - 1;
      let end = 0;
      context.moveTo(0, floor);
      for (const bin of this.load.bins) {
        const [from, to] = this.ends(bin, width);
        const y = LABELS + 1 + (floor - LABELS - 1) * (1 - bin.most / (busy || 1));
        if (from > end + 0.5) {
          context.lineTo(end, floor);
          context.lineTo(from, floor);
        }
        context.lineTo(from, y);
        end = Math.max(to, from + 1);
        context.lineTo(end, y);
      }
      context.lineTo(end, floor);
      context.lineTo(width, floor);
      context.stroke();
    }

    /** The axis of the time, with marks at round times. */
    drawAxis(context, width, base, style) {
      context.strokeStyle = context.fillStyle = style.getPropertyValue('--quiet');
      context.lineWidth = 1;
      context.font = `${LETTERS}px ${getComputedStyle(document.body).fontFamily}`;
      context.textBaseline = 'top';
      context.beginPath();
      context.moveTo(0, base + 0.5);
      context.lineTo(width, base + 0.5);
      this.ticks = clock.ticks(this.times, this.speed, width / APART);
      for (const {part, text} of this.ticks) {
        const x = Math.min(width - 0.5, Math.max(0.5, Math.round(part * width) + 0.5));
        context.moveTo(x, base);
        context.lineTo(x, base + MARK);
        const half = context.measureText(text).width / 2;
        context.textAlign = 'center';
        context.fillText(text, Math.min(width - half, Math.max(half, x)), base + MARK + 1);
      }
      context.stroke();
    }

    /** Says what the full height of the bars and of the line is. */
    label(context, width, style) {
      const {frames, busy} = this.tops;
      const percent = (100 * busy).toFixed(busy < 0.1 ? 2 : 0);
      context.font = `${LETTERS}px ${getComputedStyle(document.body).fontFamily}`;
      context.textBaseline = 'top';
      context.textAlign = 'left';
      context.fillStyle = style.getPropertyValue('--quiet');
      const who = this.who === undefined ? '' : ` of station ${this.who}`;
      context.fillText(`bars: up to ${Math.round(frames)} frames/s${who}`, 0, 0);
      context.fillStyle = style.getPropertyValue('--sender');
      context.textAlign = 'right';
      context.fillText(`line: busy up to ${percent} %`, width, 0);
    }

    /** Where a bin begins and ends, in pixels. */
    ends({begin}, width) {
      const at = (moment) => width * clock.fractionOf(this.times, moment, this.speed);
      return [at(begin), at(begin + this.load.width)];
    }

    /** The bin of a moment. @param {number} moment */
    binAt(moment) {
      const bins = this.load?.bins ?? [];
      const begins = bins.map(({begin}) => begin);
      return bins[columns.countUpTo(begins, moment) - 1];
    }
  }

  geostation.strip = {Strip};
})(globalThis.geostation ??= {});
