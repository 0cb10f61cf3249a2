//! What the map shows of a moment: the frames under way, the ones that were lost, areas, circles of
//! range, and what had no room.

(function (geostation) {
  'use strict';

  const {hearing, way, why} = geostation;
  const {grouped} = geostation.dom;
  const {countUpTo} = geostation.columns;
  /** How long a frame stays on the map where no send is chosen, in milliseconds. */
  const AFTERGLOW = 20;
  const MOST_AREAS = 8;
  /** The kinds of arcs that the legend has, and the kinds of links of each. */
  const ARCS = {accepted: 'accepted', duplicate: 'ignored', other: 'ignored', refused: 'refused',
    lost: 'lost'};
  const ALL_ARCS = new Set(Object.values(ARCS));

  /** How an event is coloured and a delivery is drawn. @param {import('./run.js').Event} event */
  function kindOf(event) {
    if (event.result === 'refused') return 'refused';
    if (event.result === 'ignored') return event.why === 'duplicate' ? 'duplicate' : 'other';
    if (event.port !== undefined) return 'accepted delivered';
    return event.result === 'accepted' ? 'accepted' : event.result;
  }

  /** @param {import('./run.js').Run} run @param {number} index of a delivery */
  function delivered(run, index, at) {
    const event = run.events.at(index);
    if (event.frame >= run.frames.length) return undefined;
    const giver = run.frames.giver.values[event.frame];
    const kind = kindOf(event).split(' ')[0];
    return {from: run.events.station.values[giver], to: event.station, frame: event.frame,
      event: index, kind, isNew: index === at};
  }

  /** The lost copies of a frame. @param {import('./run.js').Run} run @param {number} frame */
  function lost(run, frame, at) {
    const giver = run.frames.giver.values[frame];
    const from = run.events.station.values[giver];
    const isNew = run.held.sentAfter(frame) === at;
    return Array.from(run.lost.of(frame), (note) => ({from, frame, event: giver, kind: 'lost',
      to: run.notes.station.values[note], isNew}));
  }

  /**
   * The frames of a chosen send so far, as many as there is room for, and how many there are. Those
   * along its path have room first: the ones that stations accepted. Then come lost frames and the
   * latest others. The path is drawn last, above the others.
   */
  function ofSend(state, most, arcs) {
    const {run, at, noted, chosen, path} = state;
    const deliveries = shownOf(state, arcs);
    const isPath = arcs.has('accepted');
    const first = isPath ? path.events.subarray(0, countUpTo(path.events, at)) : new Int32Array(0);
    const given = chosen.numbers.filter((frame) => run.held.isSentBy(frame, at, noted));
    const gone = arcs.has('lost') ? given.flatMap((frame) => lost(run, frame, at)) : [];
    const along = ofPath(path, first, most);
    const room = most - along.length;
    const lostLinks = gone.slice(Math.max(0, gone.length - room));
    const others = latest(deliveries, new Set(first), room - lostLinks.length);
    const links = [...others, ...along].map((index) => delivered(run, index, at));
    return {links: [...lostLinks, ...links], count: gone.length + deliveries.length};
  }

  /** The deliveries of the chosen send so far whose arcs are shown. */
  function shownOf({run, at, deliveries}, arcs) {
    const all = deliveries.subarray(0, countUpTo(deliveries, at));
    if (arcs.size === ALL_ARCS.size) return all;
    return all.filter((index) => arcs.has(arcOf(run.events.at(index))));
  }

  /** The kind of arc of a delivery. @param {import('./run.js').Event} event */
  function arcOf(event) {
    return ARCS[kindOf(event).split(' ')[0]];
  }

  /** The latest deliveries of some that aren't along the path, in the order of the run. */
  function latest(deliveries, path, most) {
    const found = [];
    for (let i = deliveries.length - 1; i >= 0 && found.length < most; i -= 1) {
      if (!path.has(deliveries[i])) found.push(deliveries[i]);
    }
    return found.reverse();
  }

  /**
   * The frames along the path for which there is room: first those that a relay forwarded.
   * @param {{events: Int32Array, forwarded: Set<number>}} path
   * @param {Int32Array} first those of its events that were run @param {number} most
   */
  function ofPath({forwarded}, first, most) {
    const all = Array.from(first);
    if (all.length <= most) return all;
    const isForwarded = (index) => forwarded.has(index);
    return [...all.filter(isForwarded), ...all.filter((index) => !isForwarded(index))]
      .slice(0, most).sort((a, b) => a - b);
  }

  /** The frames of the last moments, of any kind. */
  function ofAll(state, most, arcs) {
    const {run, at} = state;
    const {events} = run;
    const found = [];
    let count = 0;
    for (let i = at; i >= 0 && i > at - 4 * most; i -= 1) {
      const isRecent = Math.abs(events.moment.values[at] - events.moment.values[i]) <= AFTERGLOW;
      const gone = sentWith(state, i, isRecent).flatMap((frame) => lost(run, frame, at));
      const came = isRecent && events.isDelivery(i) ? [delivered(run, i, at)] : [];
      const links = [...gone, ...came].filter((link) => !link || arcs.has(ARCS[link.kind]));
      count += links.length;
      if (found.length < most) found.push(...links);
      if (!isRecent) break;
    }
    return {links: found.reverse(), count};
  }

  /** The frames of the last moments that were sent at an event, or after it and before the next. */
  function sentWith({run, at, noted}, index, isRecent) {
    const {events, held, times} = run;
    const released = held.releasedAfter(index).filter((frame) =>
      held.isSentBy(frame, at, noted) && held.momentOf(frame) >= times[at] - AFTERGLOW);
    const sent = events.sent.values[index];
    return isRecent && sent >= 0 && held.fate(sent) === 'sent' ? [sent, ...released] : released;
  }

  /** The stations that gave a frame that is shown, with how far it is heard. */
  function circles(state) {
    const {run, at, note, noted, chosen} = state;
    const {metres} = hearing.range(run);
    const present = run.events.at(at);
    const told = note === undefined ? undefined : frameOfNote(run, note);
    const frame = told ?? present?.sent ?? present?.frame;
    const numbers = new Set(chosen?.numbers);
    if (frame !== undefined && frame < run.frames.length) numbers.add(frame);
    const given = [...numbers].filter((number) => run.held.isSentBy(number, at, noted));
    return given.map((number) => {
      const station = run.events.station.values[run.frames.giver.values[number]];
      return {metres, isNew: number === frame,
        place: run.stations[station] && run.placeAt(station, run.held.sentAfter(number))};
    }).filter(({place}) => place);
  }

  /** The areas of the sends whose frames are on the map. */
  function areas({run, chosen, area, sends, sendOf, frames}, links) {
    if (chosen) return area ? [area] : [];
    const numbers = new Set(links.map(({frame}) => sendOf[frame]));
    for (const frame of [frames.came, frames.given]) numbers.add(sendOf[frame] ?? -1);
    numbers.delete(-1);
    const packets = run.isCapture ? [geostation.frame.read(run.frames.octets(frames.given)).packet]
      : [...numbers].slice(-MOST_AREAS).map((i) => way.packetOf(run, sends[i]));
    return packets.map((packet) => packet?.area).filter((found) => found);
  }

  /** The frame of a note, undefined without one. @param {number} note */
  function frameOfNote(run, note) {
    const {frame} = run.notes.at(note);
    return frame < 0 ? undefined : frame;
  }

  /**
   * The stations that hold a frame, and those whose frame was cancelled: of the chosen send, or of
   * any frame and in the last moments.
   */
  function holds({run, at, noted, chosen}) {
    const {held} = run;
    const own = chosen ? held.holdsOf(chosen.numbers) : held.recent(at, AFTERGLOW);
    return held.rings(own, at, noted);
  }

  /**
   * The verdicts on the frames that the map shows: of the chosen send so far or with an arc, and of
   * the current event.
   * @returns {import('./badges.js').Badge[]}
   */
  function badges({run, at, noted, chosen, frames, verdicts}, links) {
    if (!verdicts) return [];
    const shown = chosen ? chosen.numbers : links.map(({frame}) => frame);
    const numbers = new Set([...shown, frames.came, frames.given]);
    return [...numbers].filter((frame) => verdicts.worst(frame) && run.held.isSentBy(frame, at, noted))
      .sort((a, b) => a - b)
      .map((frame) => ({frame, event: run.frames.giver.values[frame], result: verdicts.worst(frame)}));
  }

  /** The station of the current event or note, undefined without one. */
  function activeStation({run, at, note}) {
    if (note === undefined) return run.events.at(at)?.station;
    const {station} = run.notes.at(note);
    return station < 0 ? undefined : station;
  }

  /**
   * @param {any} page its state
   * @param {{links: number, circles: number, isRange: boolean, arcs?: Set<string>}} limits the arcs
   *   are the kinds that are shown, all without it
   */
  function scene(page, {links: most, circles: mostCircles, isRange, arcs = ALL_ARCS}) {
    const {run, at, note, station, chosen, steps, judgement} = page;
    const noted = note === undefined ? run.entries.notesTold(at) : note + 1;
    const state = {...page, noted};
    const isEmpty = run.events.length === 0;
    const {links, count} = isEmpty ? {links: [], count: 0}
      : chosen ? ofSend(state, most, arcs) : ofAll(state, most, arcs);
    const shown = links.filter((link) => link).slice(-most);
    const rings = isRange && !isEmpty ? circles(state) : [];
    const unseen = [];
    if (count > shown.length) {
      unseen.push(`${grouped(count - shown.length)} of ` +
        `${grouped(count)} arcs`);
    }
    if (rings.length > mostCircles) unseen.push(`${rings.length - mostCircles} circles`);
    return {at, noted, active: activeStation(state), chosen: station, links: shown, circles: rings,
      unseen, areas: isEmpty ? [] : areas(state, shown), holds: holds(state),
      tested: page.verdicts?.station, badges: badges(state, shown),
      roles: chosen ? why.roles(steps, judgement, at) : new Map()};
  }

  geostation.scene = {scene, kindOf, frameOfNote};
})(globalThis.geostation ??= {});
