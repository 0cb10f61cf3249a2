//! The page: opens a run, and keeps all parts at the same time, station and warning.

(function (geostation) {
  'use strict';

  const {byId, element, grouped} = geostation.dom;
  const {files, reading, way: ways, why, reason, rows, words, filter, clock, load, scene} = geostation;
  const {countUpTo} = geostation.columns;
  const LIMITS = {links: geostation.map.MOST_LINKS, circles: geostation.map.MOST_CIRCLES};

  /** How long lists stay as they are while it plays, in milliseconds. */
  const LISTING = 120;

  /** All that is shown. */
  const state = {run: undefined, at: 0, note: undefined, station: undefined, kind: '', result: '',
    send: -1, chosen: undefined, rows: undefined, frames: {}, opening: 0, listed: 0};

  const map = new geostation.map.RunMap(byId('map'), byId('canvas'), byId('streets'), toggleStation,
    showFrame);
  const timeline = new geostation.timeline.Timeline(go, stepBy, (warning) => {
    chooseSend(warning);
    go(state.sends[warning].event);
  });
  const strip = new geostation.strip.Strip();
  const events = new geostation.list.List(byId('events'),
    (row) => rows.entry(state, placeOfRow(row)), (row) => {
      timeline.pause();
      goToRow(row);
    });
  const sends = new geostation.list.List(byId('sends'), fillSend, (row) => {
    timeline.pause();
    chooseSend(row - 1);
    if (state.chosen) go(ways.end(state.run, state.chosen));
  });
  const missed = new geostation.list.List(byId('missed'), (row) => rows.miss(state, row),
    pickMissed);
  const tree = new geostation.list.List(byId('tree'), (row) => rows.step(state, row), (row) => {
    timeline.pause();
    go(state.steps[row].event);
  });

  /** @param {string} text */
  function tell(text) {
    byId('totals').textContent = text;
  }

  /** Opens a file, and keeps that it is being read. @param {Blob} blob */
  function open(blob, name) {
    const work = openNow(blob, name);
    state.reading = Promise.allSettled([state.reading, work]);
    return work;
  }

  /** Opens a file. If it can't be read, a sentence says why. @param {Blob} blob */
  async function openNow(blob, name) {
    state.opening += 1;
    const mine = state.opening;
    byId('fault').hidden = true;
    try {
      const kind = await files.kindOf(blob);
      if (kind === 'load') return void openLoad(await blob.text(), name);
      if (kind === 'net') return void openNet(await blob.text());
      if (kind === 'report') return void openReport(await blob.text());
      if (kind === 'capture') return void openCapture(await blob.arrayBuffer(), name, mine);
      const run = await reading.read(geostation.open.pieces(blob, tell), blob.size);
      if (mine === state.opening) begin(run, name);
    } catch (fault) {
      if (mine === state.opening) refuse(name, files.reasonOf(fault));
    }
  }

  /** Takes the load of all stations from a file of `sim --load`. @param {string} text */
  function openLoad(text, name) {
    const {RunFault} = reading;
    if (!state.run) throw new RunFault('A file of “--load” goes with a run. Open the run first.');
    const told = load.told(text, load.bins(state.run).bins);
    if (!told) throw new RunFault('This file begins as a file of “--load”, but isn’t one.');
    state.loads.set(undefined, told);
    byId('load').title = `Load of all stations, from ${name}`;
    showTotals();
    showLoad();
  }

  /** Shows a street net beneath the run. @param {string} text */
  function openNet(text) {
    const {NetFault, read} = geostation.streets;
    if (!state.run) throw new NetFault('A street net goes with a run. Open the run first.');
    map.showStreets(read(text));
  }

  /** Shows a capture, and why it ends early if it does. @param {ArrayBuffer} buffer */
  function openCapture(buffer, name, mine) {
    if (mine !== state.opening) return;
    const {run, fault} = geostation.capture.read(new Uint8Array(buffer));
    begin(run, name);
    if (fault !== undefined) refuse(name, `${fault} The page shows the records before it.`);
  }

  /** Shows verdicts on a station of the run. @param {string} text */
  function openReport(text) {
    const {ReportFault, read} = geostation.report;
    if (!state.run) throw new ReportFault('Verdicts go with a run. Open the run first.');
    showVerdicts(new geostation.verdicts.Verdicts(state.run, read(text)));
    timeline.markFails(failMarks());
    showTotals();
    listEvents();
    go(state.at, state.note);
  }

  /** The marks of the events and notes with a fail. */
  function failMarks() {
    const {run, fails, verdicts} = state;
    const nameOf = (moment, found) => `At ${moment} ms: ${geostation.verdicts.line(found)}`;
    const ofEvents = Array.from(fails.events, (event) =>
      ({event, name: nameOf(run.moment(event), verdicts.ofEvent(event))}));
    const ofNotes = Array.from(fails.notes, (note) => ({event: run.notes.after.values[note], note,
      name: nameOf(run.noteMoment(note), verdicts.ofNote(note))}));
    return [...ofEvents, ...ofNotes];
  }

  /** @param {import('./verdicts.js').Verdicts | undefined} verdicts none if undefined */
  function showVerdicts(verdicts) {
    Object.assign(state, {verdicts, fails: verdicts?.fails(), only: undefined});
    geostation.tested.show(verdicts);
  }

  /** Reports why a file can't be read. @param {string} name @param {string} why */
  function refuse(name, why) {
    byId('fault').textContent = `${name}: ${why}`;
    byId('fault').hidden = false;
    if (state.run) showTotals();
    else tell('');
  }

  /** Shows a run from its first warning on. @param {import('./run.js').Run} run */
  function begin(run, name) {
    timeline.pause();
    Object.assign(state, {run, name, at: 0, note: undefined, station: undefined, kind: '',
      result: '', rows: undefined, frames: {}, judgements: new Map(), loads: new Map()},
    ways.follow(run));
    showVerdicts(undefined);
    state.total = ways.total(run);
    document.body.dataset.state = 'run';
    document.title = `${name}: geostation viewer`;
    byId('name').textContent = name;
    for (const id of ['station', 'kind', 'result']) byId(id).value = '';
    byId('load').title = '';
    byId('all').hidden = true;
    for (const entry of document.querySelectorAll('[data-run]')) entry.hidden = run.isCapture;
    byId('away').hidden = run.isCapture || !run.presence.isTold;
    for (const kind of ['held', 'cancelled']) byId(kind).hidden = run.events.holds.length === 0;
    showTotals();
    timeline.begin(run.times, state.sends.map(({event}, i) =>
      ({event, name: `Warning ${i + 1}, at ${run.moment(event)} ms`})));
    const packets = state.sends.slice(0, 200).map((send) => ways.packetOf(run, send));
    map.begin(run, packets.map((packet) => packet?.area).filter((area) => area));
    sends.show(state.sends.length + 1, 0);
    setSend(state.sends.length > 0 ? 0 : -1);
    events.show(rowCount(), 0);
    const wanted = state.wanted ?? (state.chosen ? ways.end(run, state.chosen) : 0);
    state.wanted = undefined;
    go(wanted);
    setTimeout(() => state.run === run && showLoad(), 30);
  }

  function showTotals() {
    const count = (value, one, more = `${one}s`) =>
      `${grouped(value)} ${value === 1 ? one : more}`;
    const {total, run, verdicts} = state;
    const counted = verdicts ? [`verdicts: ${geostation.verdicts.countWords(verdicts.counts)}`] : [];
    const stations = count(run.stations.length, 'station');
    if (run.isCapture) {
      return void tell([stations, count(total.events, 'record'), ...counted].join(' · '));
    }
    tell([stations, count(total.events, 'event'),
      count(total.frames, 'frame'), count(total.deliveries, 'delivery', 'deliveries'),
      count(total.duplicates, 'duplicate'),
      count(total.ignored, 'ignored otherwise', 'ignored otherwise'),
      count(total.refused, 'refused', 'refused'),
      ...(run.air?.contends ? [count(total.held, 'held', 'held'),
        count(total.cancelled, 'cancelled', 'cancelled')] : []),
      ...counted].join(' · '));
  }

  function rowCount() {
    return state.rows ? state.rows.length : state.run.entries.length;
  }

  /** The place of what a row lists. @param {number} row */
  function placeOfRow(row) {
    return state.rows ? state.rows[row] : row;
  }

  /** The row of the current event or note, or the last row before it; -1 without such a row. */
  function presentRow() {
    const {run: {entries, events: {length}}, rows: listed, at, note} = state;
    const place = note !== undefined ? entries.ofNote(note)
      : length === 0 ? -1 : entries.ofEvent(at);
    return listed ? countUpTo(listed, place) - 1 : place;
  }

  /** Goes to what a row lists. @param {number} row */
  function goToRow(row) {
    const {event, note} = state.run.entries.at(placeOfRow(row));
    go(event, note);
  }

  /** Goes to an event, or to a note after it. @param {number} at */
  function go(at, note) {
    const {run} = state;
    state.at = Math.max(0, Math.min(at, run.events.length - 1));
    state.note = note;
    const event = run.events.at(state.at);
    state.frames = note === undefined ? {came: event?.frame, given: event?.sent ?? event?.waits}
      : {came: scene.frameOfNote(run, note)};
    const told = (note !== undefined ? words.ofNote(run, note)
      : event ? words.ofEvent(run, event) : 'This run has no events.') + verdictWords();
    byId('present').textContent = told;
    timeline.show(state.at, told);
    drawMap();
    // While it plays, nobody reads lists that change at each frame.
    if (timeline.playing && performance.now() - state.listed < LISTING) return;
    showLists();
    if (!timeline.playing) nameEvent();
  }

  /** The verdicts at the current event or note, in words. */
  function verdictWords() {
    const {at, note, verdicts} = state;
    const found = (note === undefined ? verdicts?.ofEvent(at) : verdicts?.ofNote(note)) ?? [];
    return found.length === 0 ? '' : `. Verdicts: ${geostation.verdicts.line(found)}`;
  }

  /** Shows the present event in the lists, its packet and the load. */
  function showLists() {
    state.listed = performance.now();
    events.mark(presentRow());
    tree.mark(state.steps.findIndex((step) => step.event === state.at));
    geostation.packet.show(byId('packet'), state.run, state.frames, state.verdicts);
    showPresentLoad();
  }

  /** Puts the present event into the page's address, once steps have ended. */
  function nameEvent() {
    clearTimeout(state.naming);
    state.naming = setTimeout(() => {
      if (state.run.events.length > 0) history.replaceState(null, '', `#event=${state.at}`);
    }, 150);
  }

  /**
   * Steps along what is listed. All events are played without the notes among them.
   * @param {number} by
   */
  function stepBy(by) {
    if (timeline.playing && !state.rows) return void go(state.at + by);
    const row = Math.max(0, Math.min(presentRow() + by, rowCount() - 1));
    if (rowCount() > 0) goToRow(row);
    if (row >= rowCount() - 1) timeline.pause();
  }

  /** Who was reached by a send and who wasn't, worked out once. */
  function judgementOf(send) {
    if (!state.judgements.has(send)) state.judgements.set(send, why.judge(state.run, send));
    return state.judgements.get(send);
  }

  /** @param {number} row 0 for all @returns {import('./list.js').Row} */
  function fillSend(row) {
    const send = state.sends[row - 1];
    return rows.send(state, send, send && judgementOf(send));
  }

  /** Shows the path of a warning, or all frames. @param {number} send -1 for all */
  function chooseSend(send) {
    setSend(send);
    if (state.run.events.length > 0 || map.scene) drawMap();
  }

  /** Shows a send in the lists, or that all frames are shown. @param {number} send -1 for all */
  function setSend(send) {
    const {run} = state;
    const chosen = state.sends[send];
    Object.assign(state, {chosen, send: chosen ? send : -1});
    state.steps = chosen ? ways.tree(run, chosen) : [];
    state.path = chosen && ways.path(run, state.steps);
    state.deliveries = chosen ? ways.deliveries(run, chosen) : new Int32Array(0);
    state.area = chosen && ways.packetOf(run, chosen)?.area;
    state.judgement = chosen && judgementOf(chosen);
    sends.mark(state.send + 1);
    showFigures(chosen);
    showMissed();
    byId('tree').hidden = !chosen;
    byId('sends').parentElement.classList.toggle('all', !chosen);
    tree.show(state.steps.length, state.steps.findIndex((step) => step.event === state.at));
  }

  /** @param {import('./way.js').Send | undefined} send */
  function showFigures(send) {
    const box = byId('figures');
    box.hidden = !send;
    if (!send) return;
    const {delivered, frames, hops, last} = ways.figures(state.run, send);
    const {inside} = state.judgement;
    const repeats = delivered === 0 ? '–' : (send.duplicates / delivered).toFixed(1);
    const parts = [
      ['delivered at', delivered], ['in the area', inside.length], ['frames', frames],
      ['hops', hops], ['last', `${last} ms`], ['dup./delivery', repeats],
    ];
    box.replaceChildren(...parts.map(([name, value]) =>
      element('div', '', element('dt', '', name), element('dd', '', String(value)))));
    box.title = 'In the area: the other stations in it when the warning was sent, with an open port';
  }

  /** The stations that the chosen send didn't reach. */
  function showMissed() {
    const {judgement, run} = state;
    const count = judgement?.missed.length ?? 0;
    const deaf = judgement?.deaf ?? [];
    byId('missed-box').hidden = !judgement;
    byId('why').textContent = '';
    missed.show(count, -1);
    if (!judgement) return;
    const few = deaf.slice(0, 6).map((station) => run.name(station)).join(', ');
    const closed = deaf.length === 0 ? '' : ` The port wasn’t open at ` +
      `${few}${deaf.length > 6 ? ` and ${deaf.length - 6} more` : ''}.`;
    byId('missed-title').textContent = count === 0
      ? `Reached all stations in the area.${closed}`
      : `Not reached in the area: ${count}.${closed}`;
    byId('missed').hidden = count === 0;
  }

  /** Says why a station wasn't reached, and goes to where the path came closest. @param {number} row */
  function pickMissed(row) {
    timeline.pause();
    const miss = state.judgement.missed[row];
    missed.mark(row);
    byId('why').textContent = reason.sentence(state.run, state.chosen, miss);
    chooseStation(miss.station);
    if (miss.event !== undefined) go(miss.event);
  }

  /** What the map shows: the run, the time and the warning. */
  function caption() {
    const {run, at, note, chosen} = state;
    const now = note !== undefined ? run.noteMoment(note)
      : run.events.length > 0 ? run.moment(at) : undefined;
    const sender = chosen && run.name(run.events.at(chosen.event).station);
    return [state.name, ...(now === undefined ? [] : [`at ${now} ms`]),
      chosen ? `warning of station ${sender}, sent at ${run.moment(chosen.event)} ms`
        : 'all frames'].join(' · ');
  }

  function drawMap() {
    const boxes = document.querySelectorAll('[data-arc]:checked');
    const arcs = new Set(Array.from(boxes, ({dataset}) => dataset.arc));
    map.show(scene.scene(state, {...LIMITS, isRange: byId('range').checked, arcs}));
  }

  /** Shows the load of the chosen station or of all, which is worked out once, in turns. */
  function showLoad() {
    const {run, station, loads} = state;
    if (run.isCapture) return void showNoLoad();
    state.repeats = load.repeats(run, station);
    const who = station === undefined ? undefined : run.name(station);
    strip.show(run.times, loads.get(station), timeline.speed, who);
    showPresentLoad();
    if (loads.has(station)) return;
    const turns = load.inTurns(run, station);
    const turn = () => {
      if (state.run !== run || state.station !== station) return;
      const {done, value} = turns.next();
      if (!done) return void setTimeout(turn, 0);
      loads.set(station, value);
      showLoad();
    };
    turn();
  }

  /** A capture has no load: it does not say who received a frame. */
  function showNoLoad() {
    state.repeats = undefined;
    strip.show(state.run.times, undefined, timeline.speed);
    showPresentLoad();
  }

  /** The strip's figures at the present moment. */
  function showPresentLoad() {
    const {run, station, at, repeats} = state;
    const part = clock.fraction(run.times, at, timeline.speed);
    byId('cursor').style.left = `${(100 * part).toFixed(2)}%`;
    const bin = strip.binAt(run.times[at] ?? 0);
    if (!bin || !repeats) return void (byId('load').textContent = '');
    const percent = (share) => `${(100 * share).toFixed(share < 0.1 ? 2 : 0)} %`;
    const rate = (1000 * bin.frames) / strip.load.width;
    const again = repeats.delivered === 0 ? `${repeats.duplicates} duplicates`
      : `${(repeats.duplicates / repeats.delivered).toFixed(1)} duplicates per delivery`;
    const full = repeats.full > 0 ? `, full for ${repeats.full} frames` : '';
    const busy = station === undefined
      ? `channel busy ${percent(bin.busy)} (median), ${percent(bin.most)} (most)`
      : `channel busy ${percent(bin.busy)}`;
    const table = `${station === undefined ? 'largest location table' : 'location table'} ` +
      `${bin.table}${full}`;
    byId('load').textContent = [station === undefined ? 'All' : `Station ${run.name(station)}`,
      `${Math.round(rate)} frames/s`, busy, again, table].join(' · ');
  }

  /** Shows a frame that was received or lost, and the one that was forwarded. */
  function showFrame(frame, event) {
    const {run} = state;
    const {frame: came, sent, waits} = run.events.at(event);
    state.frames = {came: frame, given: came === frame ? sent ?? waits : undefined};
    geostation.packet.show(byId('packet'), run, state.frames, state.verdicts);
    byId('packet').closest('section').scrollIntoView({block: 'nearest'});
  }

  /** Lists a station's events, or all again. @param {number | undefined} station */
  function chooseStation(station) {
    state.station = station;
    byId('station').value = station === undefined ? '' : state.run.name(station);
    listEvents();
    showLoad();
    drawMap();
  }

  /** Lists the events that are chosen by station, kind and result, or only those with a fail. */
  function listEvents() {
    const {run, station, kind, result, only} = state;
    state.rows = filter.rows(run, {station, kind, result, only});
    byId('all').hidden = state.rows === undefined;
    events.show(rowCount(), presentRow());
  }

  /** @param {number} station */
  function toggleStation(station) {
    chooseStation(station === state.station ? undefined : station);
  }

  function showAll() {
    Object.assign(state, {kind: '', result: '', only: undefined});
    byId('only-fails').checked = false;
    for (const id of ['kind', 'result']) byId(id).value = '';
    chooseStation(undefined);
  }

  /** The buttons of the map and the boxes of its legend. */
  function listenToMap() {
    byId('zoom-in').addEventListener('click', () => map.zoom(1.5));
    byId('zoom-out').addEventListener('click', () => map.zoom(1 / 1.5));
    byId('zoom-fit').addEventListener('click', () => map.fit());
    byId('save').addEventListener('click', async () => {
      // A street net that is still being read belongs to the picture.
      await state.reading;
      geostation.saving.save(map, `${state.name}.svg`, caption());
    });
    for (const box of document.querySelectorAll('.legend input')) {
      box.addEventListener('change', drawMap);
    }
  }

  /** The fields that choose which events are listed. */
  function listenToFilters() {
    byId('all').addEventListener('click', showAll);
    byId('only-fails').addEventListener('change', () => {
      state.only = byId('only-fails').checked ? state.fails : undefined;
      listEvents();
    });
    byId('station').addEventListener('input', () => {
      const typed = byId('station').value;
      chooseStation(state.run.find(typed.trim()));
      byId('station').value = typed;
    });
    for (const name of ['kind', 'result']) {
      const options = filter[`${name.toUpperCase()}S`].map((word) => new Option(word, word));
      byId(name).append(...options);
      byId(name).addEventListener('change', () => {
        state[name] = byId(name).value;
        listEvents();
      });
    }
  }

  function listen() {
    listenToMap();
    listenToFilters();
    window.addEventListener('hashchange', () => {
      const wanted = clock.eventOf(location.hash);
      if (wanted === undefined) return;
      timeline.pause();
      if (state.run) go(wanted);
      else state.wanted = wanted;
    });
    timeline.changed = () => state.run && showLoad();
    timeline.paused = () => {
      showLists();
      nameEvent();
    };
    for (const handle of document.querySelectorAll('.handle')) geostation.split.listen(handle);
  }

  for (const key of document.querySelectorAll('.key [data-mark]')) {
    const {mark} = key.dataset;
    key.setAttribute('class', `symbol ${mark}`);
    key.setAttribute('d', geostation.shape.markPath(geostation.shape.markOf(mark), 4.2));
  }
  for (const key of document.querySelectorAll('.key [data-hold]')) {
    key.setAttribute('class', 'hold');
    key.setAttribute('d', geostation.shape.ringPath(key.dataset.hold, 4.6));
  }
  for (const key of document.querySelectorAll('.key [data-result]')) {
    const {result} = key.dataset;
    const sign = geostation.drawn.makeSign();
    sign.children[1].setAttribute('d', geostation.shape.SIGNS[result]);
    sign.setAttribute('class', `badge ${result}`);
    sign.lastElementChild.remove();
    key.replaceWith(sign);
  }
  for (const key of document.querySelectorAll('.key .tested')) {
    key.setAttribute('d', geostation.shape.cornersPath(6));
  }
  byId('loading').remove();
  state.wanted = clock.eventOf(location.hash);
  geostation.open.shown(open);
  geostation.open.dropped(open);
  listen();
  geostation.open.inside(open, refuse);
  geostation.open.named(open, refuse);
  geostation.app = {state, open, go, map, timeline, strip};
})(globalThis.geostation ??= {});
