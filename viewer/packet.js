//! The panel of a frame: the fields of its packet in words and units, and its octets.

(function (geostation) {
  'use strict';

  const {element} = geostation.dom;
  const KINDS = {
    beacon: 'beacon: the position of a station',
    shb: 'SHB: a message to all stations in range',
    gbc: 'GBC: a message to all stations in an area',
    gac: 'GAC: a message to any station in an area',
    guc: 'GUC: a message to one station',
    tsb: 'TSB: a message to all stations within some hops',
    'ls-request': 'LS request: which station has this address?',
    'ls-reply': 'LS reply: the position of a station',
  };

  /** Tenths of a microdegree as degrees. @param {number} value */
  function degrees(value) {
    return (value / 1e7).toFixed(7) + '°';
  }

  /** @param {import('./geo.js').Place} place */
  function place({lat, lon}) {
    return `${degrees(lat)}, ${degrees(lon)}`;
  }

  /** @param {import('./geo.js').Area} area */
  function areaWords(area) {
    const size = area.shape === 'circle' ? `${area.a} m` : `${area.a} m by ${area.b} m`;
    const turned = area.angle === 0 ? '' : `, turned by ${area.angle}°`;
    return `${area.shape}, ${size}${turned}, at ${place(area)}`;
  }

  /** A payload as its octets, and as text where it is printable. @param {string} payload */
  function payloadWords(payload) {
    if (payload === '') return 'empty';
    const octets = geostation.frame.fromHex(payload);
    const isText = octets.every((octet) => octet >= 32 && octet < 127);
    return isText ? `${payload} “${String.fromCharCode(...octets)}”` : payload;
  }

  /** What a packet carries, and to which port. */
  function contentRows(p) {
    if (p.payload === undefined) return [];
    const rows = [['payload', payloadWords(p.payload)]];
    if (p.sourcePort !== undefined) rows.push(['port, source port', `${p.port}, ${p.sourcePort}`]);
    else if (p.port !== undefined) rows.push(['port, info', `${p.port}, ${p.info}`]);
    else rows.push(['next header', p.next]);
    return rows;
  }

  /** For whom a packet is, if it is for an area or for one station. */
  function targetRows({area, destination, sought}) {
    const rows = [];
    if (area) rows.push(['area', areaWords(area)]);
    if (destination) rows.push(['destination', `${destination.address}, ${place(destination)}`]);
    if (sought) rows.push(['sought address', sought]);
    return rows;
  }

  /**
   * The fields, what it says first.
   * @param {import('./frame.js').Packet | import('./outside.js').Outside} p
   */
  function fields(p) {
    const rows = [['kind', KINDS[p.kind]], ...contentRows(p), ...targetRows(p)];
    rows.push(['hops left', `${p.left} of ${p.max}`], ['source', p.address]);
    if (p.number !== undefined) rows.push(['sequence number', String(p.number)]);
    rows.push(
      ['time stamp', `${p.tst} ms`],
      ['position', `${place(p)}${p.pai ? '' : ', not accurate'}`],
      ['speed, heading', `${(p.speed / 100).toFixed(2)} m/s, ${(p.heading / 10).toFixed(1)}°`],
      ['lifetime', `${geostation.frame.lifetimeMillis(p.lifetime) / 1000} s`],
      ['traffic class', p.trafficClass.toString(16).padStart(2, '0')],
      ['mobile', p.mobile ? 'yes' : 'no'],
      ['from, to', `${p.from}, ${p.to === 'ffffffffffff' ? 'all' : p.to}`],
    );
    return rows;
  }

  /** @param {string[][]} rows @param {Map<string, string>} other values to compare with */
  function table(rows, other) {
    const parts = ([name, value]) => {
      const isOther = other.size > 0 && other.get(name) !== value;
      return [element('dt', '', name), element('dd', isOther ? 'changed' : '', value)];
    };
    return element('dl', 'fields', ...rows.flatMap(parts));
  }

  /** Who sent a frame and when, or held it. @param {number} number */
  function sending(run, number) {
    const giver = run.frames.giver.values[number];
    const who = `by station ${run.name(run.events.station.values[giver])}`;
    const fate = run.held.fate(number);
    const [from, end] = [run.moment(giver), run.held.digits(number)];
    if (fate === 'sent') return `sent ${who} at ${end} ms`;
    if (fate === 'waits') return `held ${who} from ${from} ms on`;
    const done = fate === 'released' ? 'sent' : fate;
    return `held ${who} at ${from} ms and ${done} at ${end} ms`;
  }

  /**
   * What the stations did with a frame.
   * @param {import('./run.js').Run} run @param {number} number
   */
  function fate(run, number) {
    if (run.isCapture) return `Record ${number}, ${sending(run, number)}.`;
    const deliveries = Array.from(run.deliveries.of(number));
    const count = (result) => deliveries.filter((index) => run.events.is(index, result)).length;
    const lost = run.lost.of(number).length;
    const words = `Frame ${number}, ${sending(run, number)}: ` +
      `${count('accepted')} accepted it, ${count('ignored')} ignored it, ` +
      `${count('refused')} refused it`;
    return lost > 0 ? `${words}, ${lost} lost it.` : `${words}.`;
  }

  /**
   * The rows of octets' fields, and the fault if they are no packet of the standard.
   * @param {Uint8Array} octets
   */
  function rowsOfOctets(octets) {
    const {packet, security, inner, fault} = geostation.secured.read(octets);
    const outside = fault && geostation.outside.read(inner ?? octets);
    if (!packet && !outside) return {rows: [], fault};
    const rows = outside ? [['outside the profile', fault]] : [];
    rows.push(...fields(packet ?? outside));
    if (security) rows.push(['security', geostation.secured.words(security)]);
    return {rows};
  }

  /** The rows of a frame's fields. */
  function rowsOf(run, number) {
    return rowsOfOctets(run.frames.octets(number));
  }

  /**
   * A frame's part of the panel.
   * @param {import('./run.js').Run} run @param {number} number @param {string} title
   * @param {string[][]} before rows to compare its own with
   * @param {import('./verdicts.js').Verdicts} [verdicts]
   */
  function part(run, number, title, before, verdicts) {
    const {rows, fault} = rowsOf(run, number);
    const body = fault ? element('p', 'quiet', `Not a valid packet: ${fault}.`)
      : table(rows, new Map(before));
    const code = element('code', 'octets', geostation.frame.toHex(run.frames.octets(number)));
    return element('div', 'frame', ...(title ? [element('h3', '', title)] : []),
      element('p', 'fate', fate(run, number)), ...geostation.tested.listOf(verdicts, number), body,
      code);
  }

  /**
   * Shows the frame that was received and the one that was forwarded, or that no frame exists.
   * @param {HTMLElement} box @param {import('./run.js').Run} run
   * @param {{came?: number, given?: number}} frames
   * @param {import('./verdicts.js').Verdicts} [verdicts] on a station of the run
   */
  function show(box, run, {came, given}, verdicts) {
    box.scrollTop = 0;
    const isThere = (number) => number !== undefined && number < run.frames.length;
    if (isThere(came) && isThere(given)) {
      const {rows} = rowsOf(run, came);
      const title = run.held.isSent(given) ? 'Forwarded frame' : 'Held frame';
      box.replaceChildren(part(run, came, 'Received frame', [], verdicts),
        part(run, given, title, rows, verdicts));
      return;
    }
    const number = came ?? given;
    const why = number === undefined ? 'This event has no frame.'
      : `There is no frame ${number}.`;
    box.replaceChildren(isThere(number) ? part(run, number, '', [], verdicts)
      : element('p', 'quiet', why));
  }

  geostation.packet = {show, fields, rowsOfOctets};
})(globalThis.geostation ??= {});
