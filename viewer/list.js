//! A list of any length: only the rows in sight are in the page.

(function (geostation) {
  'use strict';

  const {element} = geostation.dom;
  const ROW = 28;
  /** Browsers draw no element much higher; a longer list is scrolled in proportion. */
  const HIGHEST = 8000000;

  /**
   * @typedef {object} Row what stands in a row
   * @property {string} kind its classes
   * @property {string} [title]
   * @property {number} [hop] how far it is indented
   * @property {[string, string][]} cells the class and the text of each
   */

  class List {
    /**
     * @param {HTMLElement} box
     * @param {(index: number) => Row} fill tells what stands in a row
     * @param {(index: number) => void} pick a row was chosen
     */
    constructor(box, fill, pick) {
      this.box = box;
      this.fill = fill;
      this.pick = pick;
      this.count = 0;
      this.present = -1;
      this.space = element('div', 'space');
      this.rows = element('div', 'rows');
      box.append(this.space);
      this.space.append(this.rows);
      box.tabIndex = 0;
      box.setAttribute('role', 'listbox');
      box.addEventListener('scroll', () => this.draw(), {passive: true});
      // A list may move between a press and its click: the row that was pressed counts.
      box.addEventListener('pointerdown', (event) => {
        this.pressed = indexAt(event);
      });
      box.addEventListener('click', (event) => this.click(indexAt(event)));
      box.addEventListener('keydown', (event) => this.key(event));
      new ResizeObserver(() => this.draw()).observe(box);
    }

    /** @param {number} count of rows @param {number} present the one that is marked, or -1 */
    show(count, present) {
      this.count = count;
      this.height = Math.min(count * ROW, HIGHEST);
      this.space.style.height = `${this.height}px`;
      this.mark(present);
    }

    /** Marks a row and scrolls to it. @param {number} present */
    mark(present) {
      this.present = present;
      if (present >= 0) this.reveal(present);
      this.draw();
    }

    /** How many pixels of scrolling one row is. */
    get step() {
      return this.count === 0 ? ROW : this.height / this.count;
    }

    /** @param {number} index */
    reveal(index) {
      const top = index * this.step;
      const {scrollTop, clientHeight} = this.box;
      if (top >= scrollTop + ROW / 2 && top + ROW <= scrollTop + clientHeight - ROW / 2) return;
      this.box.scrollTop = Math.max(0, top - clientHeight / 2 + ROW / 2);
    }

    draw() {
      const {scrollTop, clientHeight} = this.box;
      const inSight = Math.ceil(clientHeight / ROW) + 2;
      const lowestFirst = Math.max(0, this.count - inSight + 2);
      const first = Math.min(Math.floor(scrollTop / this.step), lowestFirst);
      const length = Math.max(0, Math.min(inSight, this.count - first));
      const {children} = this.rows;
      // One that is pressed is hidden and not taken away, as it would give no click then.
      while (children.length > length && this.pressed === undefined) this.rows.lastChild.remove();
      while (children.length < length) this.rows.append(this.makeRow());
      const lowest = Math.max(0, this.height - length * ROW);
      this.rows.style.transform = `translateY(${Math.min(first * this.step, lowest)}px)`;
      this.box.removeAttribute('aria-activedescendant');
      for (let i = 0; i < children.length; i += 1) {
        children[i].hidden = i >= length;
        if (i < length) this.write(children[i], first + i);
      }
    }

    makeRow() {
      const row = element('div', 'row');
      row.setAttribute('role', 'option');
      return row;
    }

    /** @param {any} row @param {number} index */
    write(row, index) {
      const isPresent = index === this.present;
      row.dataset.index = String(index);
      row.id = `${this.box.id}-${index}`;
      row.setAttribute('aria-posinset', String(index + 1));
      row.setAttribute('aria-setsize', String(this.count));
      row.setAttribute('aria-selected', String(isPresent));
      if (isPresent) this.box.setAttribute('aria-activedescendant', row.id);
      const {kind, title = '', hop = 0, cells} = this.fill(index);
      row.className = `row ${kind}`;
      row.title = title;
      row.style.setProperty('--hop', String(hop));
      // Cells are kept and not made again, because a press on a removed cell makes no click.
      while (row.children.length > cells.length) row.lastChild.remove();
      while (row.children.length < cells.length) row.append(element('span', ''));
      cells.forEach(([className, text], i) => {
        row.children[i].className = className;
        row.children[i].textContent = text;
      });
    }

    /** @param {number | undefined} index */
    click(index) {
      const picked = this.pressed ?? index;
      this.pressed = undefined;
      if (picked !== undefined && picked < this.count) this.pick(picked);
    }

    /** Up, down, home and end choose a row. @param {KeyboardEvent} event */
    key(event) {
      const steps = {ArrowDown: 1, ArrowUp: -1, PageDown: 10, PageUp: -10,
        Home: -this.count, End: this.count};
      const step = steps[event.key];
      if (step === undefined || this.count === 0) return;
      event.preventDefault();
      event.stopPropagation();
      this.pick(Math.max(0, Math.min(this.count - 1, this.present + step)));
    }
  }

  /** The row that an event is in. @param {Event} event @returns {number | undefined} */
  function indexAt(event) {
    const row = /** @type {HTMLElement} */ (event.target).closest('.row');
    return row ? Number(row.dataset.index) : undefined;
  }

  geostation.list = {List};
})(globalThis.geostation ??= {});
