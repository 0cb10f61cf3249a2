//! The map as a file: SVG with its looks in it, so that other programs draw it as the page does.
//! Below the map it has a caption and the legend.

(function (geostation) {
  'use strict';

  const {svg, set} = geostation.dom;
  /** What CSS says about an element and SVG has as attributes. */
  const LOOKS = ['fill', 'fill-opacity', 'stroke', 'stroke-width', 'stroke-opacity',
    'stroke-dasharray', 'stroke-linecap', 'stroke-linejoin', 'opacity', 'paint-order',
    'vector-effect', 'marker-end', 'font-family', 'font-size', 'font-weight', 'text-anchor'];

  /**
   * A copy of an element with its looks as attributes, without what isn't seen.
   * @param {Element} element @returns {Element | undefined}
   */
  function copyOf(element) {
    const style = getComputedStyle(element);
    if (style.display === 'none' || element.classList.contains('hit')) return undefined;
    const copy = /** @type {Element} */ (element.cloneNode(false));
    for (const name of ['class', 'style', 'role', 'aria-label']) copy.removeAttribute(name);
    for (const name of Object.keys(copy.dataset ?? {})) delete copy.dataset[name];
    for (const look of LOOKS) {
      const value = style.getPropertyValue(look);
      // The address of a marker has the page's own before it.
      if (value) copy.setAttribute(look, value.replace(/url\("?[^"#]*(#[^")]+)"?\)/, 'url($1)'));
    }
    for (const child of element.childNodes) {
      const part = child.nodeType === Node.ELEMENT_NODE ? copyOf(child) : child.cloneNode();
      if (part) copy.append(part);
    }
    return copy;
  }

  /** What is painted on the canvas, as a picture in the file. @param {HTMLCanvasElement} canvas */
  function pictureOf(canvas, {width, height}) {
    return svg('image', {href: canvas.toDataURL(), width, height});
  }

  /** Sizes of the caption and the legend, in pixels. */
  const [EDGE, ROW, KEY, LETTER, APART] = [16, 20, 24, 6.6, 14];
  const DASHES = {dashed: '7 5', dotted: '2 4', solid: 'none'};

  /** A text in the colour of an element. @param {Element} like */
  function textAt(x, y, words, like, weight = 400) {
    const {color, fontFamily} = getComputedStyle(like);
    const text = svg('text', {x, y, fill: color, 'font-family': fontFamily, 'font-size': 12,
      'font-weight': weight});
    text.textContent = words;
    return text;
  }

  /** The key of an entry of the legend: a mark, or a piece of a line. @param {Element} key */
  function keyAt(x, y, key) {
    if (key instanceof SVGElement) {
      const mark = svg('g', {transform: `translate(${x + KEY / 2 - 4} ${y - 4})`});
      mark.append(copyOf(key.firstElementChild) ?? '');
      return mark;
    }
    const {borderTopColor, borderTopStyle, borderTopWidth} = getComputedStyle(key);
    return svg('path', {d: `M${x} ${y - 4}h${KEY - 4}`, fill: 'none', stroke: borderTopColor,
      'stroke-width': parseFloat(borderTopWidth), 'stroke-dasharray': DASHES[borderTopStyle]});
  }

  /** The entries of the legend whose marks or lines are in the map. */
  function entries() {
    return [...document.querySelectorAll('.legend li')].filter((entry) =>
      !entry.hidden && entry.querySelector('input')?.checked !== false);
  }

  /**
   * The caption and the legend below a map.
   * @param {number} width @param {number} top @param {string} caption
   * @returns {{parts: SVGElement[], height: number}}
   */
  function below(width, top, caption) {
    const [legend, body] = [document.querySelector('.legend'), document.body];
    const parts = [textAt(EDGE, top + ROW, caption, body, 600)];
    let [x, y] = [EDGE, top + 2 * ROW];
    for (const entry of entries()) {
      const words = entry.textContent.trim();
      const long = KEY + LETTER * words.length + APART;
      if (x > EDGE && x + long > width) [x, y] = [EDGE, y + ROW];
      parts.push(keyAt(x, y, entry.querySelector('.key')), textAt(x + KEY, y, words, legend));
      x += long;
    }
    return {parts, height: y + ROW / 2 - top};
  }

  /**
   * The map as the text of an SVG file.
   * @param {import('./map.js').RunMap} map @param {string} caption
   */
  function textOf(map, caption) {
    const {width, height} = map.box;
    const picture = svg('svg', {width, height, viewBox: `0 0 ${width} ${height}`});
    picture.append(map.ground.element() ?? '');
    if (map.painter === map.painted) picture.append(pictureOf(map.canvas, map.box));
    for (const child of map.root.children) {
      const copy = copyOf(child);
      if (copy) picture.append(copy);
    }
    const legend = below(width, height, caption);
    const whole = height + legend.height;
    const file = svg('svg', {width, height: whole, viewBox: `0 0 ${width} ${whole}`});
    const ground = svg('rect', {width, height: whole});
    set(ground, {fill: getComputedStyle(map.root.parentElement).backgroundColor});
    file.append(ground, picture, ...legend.parts);
    return `<?xml version="1.0" encoding="UTF-8"?>\n${new XMLSerializer().serializeToString(file)}\n`;
  }

  /**
   * Saves the map.
   * @param {import('./map.js').RunMap} map @param {string} name of the file @param {string} caption
   */
  function save(map, name, caption) {
    const link = document.createElement('a');
    link.href = URL.createObjectURL(new Blob([textOf(map, caption)], {type: 'image/svg+xml'}));
    link.download = name;
    link.click();
    setTimeout(() => URL.revokeObjectURL(link.href), 10000);
  }

  geostation.saving = {textOf, save};
})(globalThis.geostation ??= {});
