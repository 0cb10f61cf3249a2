//! Elements of the page. Data goes in as text, never as markup.

(function (geostation) {
  'use strict';

  const SVG = 'http://www.w3.org/2000/svg';

  /** The element of the page with a name. @param {string} id @returns {any} */
  function byId(id) {
    return document.getElementById(id);
  }

  /**
   * A new HTML element.
   * @param {string} tag @param {string} className @param {...(Node | string)} children
   */
  function element(tag, className, ...children) {
    const made = document.createElement(tag);
    if (className) made.className = className;
    made.append(...children);
    return made;
  }

  /** A new SVG element. @param {string} tag @param {Record<string, string | number>} attributes */
  function svg(tag, attributes = {}) {
    const made = document.createElementNS(SVG, tag);
    set(made, attributes);
    return made;
  }

  /** Sets attributes of an element. @param {Element} target @param {object} attributes */
  function set(target, attributes) {
    for (const [name, value] of Object.entries(attributes)) {
      target.setAttribute(name, String(value));
    }
  }

  /** A whole number with commas between thousands. @param {number} value */
  function grouped(value) {
    return String(value).replace(/\B(?=(\d{3})+$)/g, ',');
  }

  /** Makes a list of an array's elements as long as asked, and shows no more of them. */
  class Pool {
    /** @param {() => any} make @param {Element} parent */
    constructor(make, parent) {
      this.make = make;
      this.parent = parent;
      /** @type {any[]} */
      this.items = [];
      this.used = 0;
    }

    /** @returns {any} the next element, which is made if it does not exist */
    next() {
      if (this.used === this.items.length) {
        this.items.push(this.make());
        this.parent.append(this.items[this.used]);
      }
      const item = this.items[this.used];
      if (item.style.display !== '') item.style.display = '';
      this.used += 1;
      return item;
    }

    /** Begins again; `finish` hides what isn't taken again. */
    begin() {
      this.used = 0;
    }

    finish() {
      for (let i = this.used; i < this.items.length; i += 1) this.items[i].style.display = 'none';
    }
  }

  geostation.dom = {byId, element, svg, set, grouped, Pool};
})(globalThis.geostation ??= {});
