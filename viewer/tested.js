//! What the page says about the station under test, apart from the map: which one it is, the box
//! *only fails*, and the verdicts on a frame.

(function (geostation) {
  'use strict';

  const {byId, element, grouped} = geostation.dom;
  const {verdicts: judged} = geostation;

  /**
   * Shows which station is under test, or hides what is about verdicts.
   * @param {import('./verdicts.js').Verdicts | undefined} verdicts
   */
  function show(verdicts) {
    byId('verdicts').hidden = !verdicts;
    byId('only-fails').checked = false;
    for (const entry of document.querySelectorAll('[data-tested]')) entry.hidden = !verdicts;
    byId('under-test').textContent = verdicts ? nameOf(verdicts) : '';
  }

  /**
   * The station under test, and how many of its verdicts the file has if it does not have all.
   * @param {import('./verdicts.js').Verdicts} verdicts
   */
  function nameOf({run, station, counts: {pass, fail, inconclusive}, listed}) {
    const total = pass + fail + inconclusive;
    const rest = listed === total ? ''
      : `: ${grouped(listed)} of ${grouped(total)} verdicts. “verdict --all” prints all`;
    return `Station ${run.name(station)} under test${rest}`;
  }

  /**
   * The verdicts on a frame, as elements of the panel of packets.
   * @param {import('./verdicts.js').Verdicts | undefined} verdicts @param {number} frame
   */
  function listOf(verdicts, frame) {
    const own = verdicts?.of(frame) ?? [];
    if (own.length === 0) return [];
    const title = `Verdicts on station ${verdicts.run.name(verdicts.station)}, ` +
      `record ${own[0].record} of its capture`;
    const list = element('ul', 'verdict-list',
      ...own.map((verdict) => element('li', `verdict ${verdict.result}`,
        judged.words(verdict) + verdicts.otherFrames(verdict))));
    list.setAttribute('aria-label', title);
    return [element('h3', '', title), list];
  }

  geostation.tested = {show, listOf};
})(globalThis.geostation ??= {});
