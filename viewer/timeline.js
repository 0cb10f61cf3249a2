//! Time: the slider with the marks of warnings, playing, and steps from event to event.

(function (geostation) {
  'use strict';

  const {byId, element} = geostation.dom;
  const {clock} = geostation;
  /** More marks of a kind would be one band. */
  const MOST_MARKS = 400;

  class Timeline {
    /**
     * @param {(at: number, note?: number) => void} go to an event or a note @param {(step: number) => void} stepBy
     * @param {(warning: number) => void} pick the mark of a warning was clicked
     */
    constructor(go, stepBy, pick) {
      this.go = go;
      this.stepBy = stepBy;
      this.pick = pick;
      this.playing = false;
      this.times = new Float64Array(0);
      this.marked = [];
      this.failed = [];
      this.slider = byId('slider');
      this.slider.max = String(clock.STEPS);
      this.button = byId('play');
      this.slider.addEventListener('input', () => this.slide());
      this.button.addEventListener('click', () => this.toggle());
      byId('previous').addEventListener('click', () => this.step(-1));
      byId('next').addEventListener('click', () => this.step(1));
      byId('speed').addEventListener('change', () => this.change());
      document.addEventListener('keydown', (event) => this.key(event));
    }

    /**
     * Begins with another run.
     * @param {Float64Array} times of its events
     * @param {{event: number, name: string}[]} marks of its warnings
     */
    begin(times, marks) {
      this.pause();
      this.times = times;
      this.marked = marks;
      this.failed = [];
      this.at = 0;
      this.drawMarks();
    }

    get count() {
      return this.times.length;
    }

    get speed() {
      return clock.speed(byId('speed').value);
    }

    /** Another speed: the slider may go by another measure. */
    change() {
      this.drawMarks();
      this.place();
      this.changed?.();
    }

    /**
     * Marks the events with a fail, and the notes after an event.
     * @param {{event: number, note?: number, name: string}[]} fails
     */
    markFails(fails) {
      this.failed = fails;
      this.drawMarks();
    }

    drawMarks() {
      const some = [...this.few(this.marked, 'warnings'), ...this.few(this.failed, 'fails')];
      byId('marks').title = some.join('. ');
      const warnings = thinned(this.marked).map((mark) =>
        this.makeMark(mark, 'mark', '', () => this.pick(mark.number)));
      const fails = thinned(this.failed).map((mark) =>
        this.makeMark(mark, 'mark fail', '✗', () => this.go(mark.event, mark.note)));
      byId('marks').replaceChildren(...warnings, ...fails);
    }

    /** That not all are marked, as a list of one sentence or none. */
    few({length}, what) {
      const every = Math.ceil(length / MOST_MARKS);
      return every > 1 ? [`One of ${every} among ${length} ${what} is marked`] : [];
    }

    /** @param {{event: number, name: string}} mark @param {() => void} pick */
    makeMark({event, name}, className, sign, pick) {
      const mark = element('button', className, sign);
      mark.type = 'button';
      mark.tabIndex = -1;
      mark.title = name;
      mark.style.left = `${100 * clock.fraction(this.times, event, this.speed)}%`;
      mark.addEventListener('click', () => {
        this.pause();
        pick();
      });
      return mark;
    }

    slide() {
      this.clock?.set(this.at);
      this.go(clock.eventAt(this.times, Number(this.slider.value) / clock.STEPS, this.speed));
    }

    /** @param {number} at @param {string} words what the event is */
    show(at, words) {
      this.at = at;
      this.clock?.set(at);
      this.slider.setAttribute('aria-valuetext', words);
      this.place();
    }

    place() {
      const part = clock.fraction(this.times, this.at, this.speed);
      this.slider.value = String(Math.round(part * clock.STEPS));
    }

    /** @param {number} by */
    step(by) {
      this.pause();
      this.stepBy(by);
    }

    toggle() {
      if (this.playing) this.pause();
      else this.play();
    }

    play() {
      if (this.count < 2) return;
      if (this.at >= this.count - 1) this.go(0);
      this.playing = true;
      this.clock = new clock.Clock(this.times, this.at);
      this.mark('Pause');
      let before = performance.now();
      const turn = (now) => {
        if (!this.playing) return;
        this.advance(Math.min(250, Math.max(0, now - before)));
        before = now;
        requestAnimationFrame(turn);
      };
      requestAnimationFrame(turn);
    }

    /** @param {number} millis that went by */
    advance(millis) {
      const {speed} = this;
      const before = this.at;
      const steps = this.clock.advance(millis, speed);
      if (steps > 0 && speed.by === 'time') this.go(before + steps);
      else if (steps > 0) this.stepBy(steps);
      if (this.at >= this.count - 1) this.pause();
    }

    pause() {
      const wasPlaying = this.playing;
      this.playing = false;
      this.clock = undefined;
      this.mark('Play');
      if (wasPlaying) this.paused?.();
    }

    /** Shows what the button does: its sign is drawn by its name. @param {string} name */
    mark(name) {
      this.button.setAttribute('aria-label', name);
      // While it plays, each event would be read out.
      byId('present').setAttribute('aria-live', this.playing ? 'off' : 'polite');
    }

    /** Space plays; arrows step, with shift by ten. @param {KeyboardEvent} event */
    key(event) {
      if (!this.count || event.altKey || event.ctrlKey || event.metaKey) return;
      const target = /** @type {HTMLElement} */ (event.target);
      const isSlider = target === this.slider;
      if (target.closest?.('select, textarea, input') && !isSlider) return;
      if (event.key === ' ' && target.closest?.('button, summary, a')) return;
      const size = event.shiftKey ? 10 : 1;
      const steps = {ArrowRight: size, ArrowDown: size, ArrowLeft: -size, ArrowUp: -size,
        Home: -Infinity, End: Infinity};
      if (event.key === ' ') this.toggle();
      else if (event.key in steps) this.step(steps[event.key]);
      else return;
      event.preventDefault();
    }
  }

  /** As many of some marks as there is room for, with their numbers. */
  function thinned(marks) {
    const every = Math.ceil(marks.length / MOST_MARKS);
    return marks.map((mark, number) => ({...mark, number})).filter((_, i) => i % every === 0);
  }

  geostation.timeline = {Timeline};
})(globalThis.geostation ??= {});
