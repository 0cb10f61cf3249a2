//! Panels that can be resized: handles between them, by pointer and by arrow keys.

(function (geostation) {
  'use strict';

  const LEAST = 90;
  const STEP = 24;

  /**
   * The sizes of two neighbours once a handle between them was moved: neither falls below the least
   * size, as long as both have room for it.
   * @param {number} first @param {number} second in pixels @param {number} by
   * @param {number} [least]
   * @returns {[number, number]}
   */
  function move(first, second, by, least = LEAST) {
    const whole = first + second;
    const low = Math.min(least, whole / 2);
    const size = Math.max(low, Math.min(first + by, whole - low));
    return [size, whole - size];
  }

  /** Lets a handle change the sizes of the elements before and behind it. @param {any} handle */
  function listen(handle) {
    const isAcross = handle.getAttribute('aria-orientation') === 'vertical';
    const size = (element) => element.getBoundingClientRect()[isAcross ? 'width' : 'height'];
    const shift = (by) => {
      const pair = [handle.previousElementSibling, handle.nextElementSibling];
      const sizes = move(size(pair[0]), size(pair[1]), by);
      for (const element of handle.parentElement.children) {
        if (element.getAttribute('role') !== 'separator' && !pair.includes(element)) {
          element.style.flex = `${size(element)} 1 0`;
        }
      }
      pair.forEach((element, i) => {
        element.style.flex = `${sizes[i]} 1 0`;
      });
    };
    handle.addEventListener('pointerdown', (down) => {
      down.preventDefault();
      handle.setPointerCapture(down.pointerId);
      let at = isAcross ? down.clientX : down.clientY;
      const drag = (event) => {
        const now = isAcross ? event.clientX : event.clientY;
        shift(now - at);
        at = now;
      };
      handle.addEventListener('pointermove', drag);
      handle.addEventListener('pointerup', () =>
        handle.removeEventListener('pointermove', drag), {once: true});
    });
    handle.addEventListener('keydown', (event) => {
      const forth = isAcross ? 'ArrowRight' : 'ArrowDown';
      const back = isAcross ? 'ArrowLeft' : 'ArrowUp';
      if (event.key !== forth && event.key !== back) return;
      event.preventDefault();
      event.stopPropagation();
      shift(event.key === forth ? STEP : -STEP);
    });
  }

  geostation.split = {move, listen};
})(globalThis.geostation ??= {});
