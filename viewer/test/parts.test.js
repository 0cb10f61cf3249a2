//! The parts that need no page, run by node: frames against the samples of the program, geometry
//! and ways against values worked out by hand.

'use strict';

const assert = require('node:assert/strict');
const fs = require('node:fs');
const path = require('node:path');
const test = require('node:test');
const {load, read, TOP} = require('./load.js');
const samples = require('./samples.js');

const {frame, geo, reading, shape, way, why, words} = load();
const EXAMPLES = path.join(TOP, '..', 'cases', 'data');
const WARNING = 'ffffffffffff020000000001894711001a0a2040008000060a00000000001400020000000001' +
  '000000000000000000000000000000000000000000000000006400000000000007d200006869';
const HEAD = '{"stations":[{"address":"1400020000000001","lat":0,"lon":0}]}';

/** The lines of a sample, without the last line's end. */
function lines(name) {
  return fs.readFileSync(path.join(EXAMPLES, name), 'utf8').trimEnd().split('\n');
}

for (const name of ['beacon', 'shb', 'gbc', 'gac', 'refused']) {
  test(`frames of ${name}.txt show as ${name}.show`, () => {
    const shown = lines(`${name}.txt`).map((line) => {
      const [moment, octets] = line.split(' ');
      const {packet, fault} = frame.decode(octets);
      return `${moment} ${packet ? frame.line(packet) : `refused ${fault}`}`;
    });
    assert.deepEqual(shown, lines(`${name}.show`));
  });
}

test('a frame is refused at the first wrong field, in the order of the wire', () => {
  const change = (at, octet) => {
    const place = 2 * (14 + at);
    return frame.decode(WARNING.slice(0, place) + octet + WARNING.slice(place + 2)).fault;
  };
  const faults = [
    [0, '01', 'L5 G2 at 0'], [0, '12', 'L5 G3 at 0'], [1, '80', 'L5 G4 at 1'],
    [3, '00', 'L5 G5 at 3'], [4, '10', 'L5 G6 at 4'], [4, '21', 'L5 G4 at 4'],
    [5, '20', 'L5 G7 at 5'], [5, '43', 'L5 G8 at 5'], [5, '33', 'L5 G8 at 5'],
    [5, '51', 'L5 G8 at 5'], [7, '81', 'L5 G4 at 7'], [9, '03', 'L5 G10 at 8'],
    [10, '09', 'L5 G9 at 10'], [11, '01', 'L5 G4 at 11'], [15, '01', 'L5 G4 at 14'],
    [18, '01', 'L5 G11 at 16'], [28, '7f', 'L5 G11 at 28'], [32, '7f', 'L5 G11 at 32'],
    [40, '80', 'L5 G12 at 40'], [44, '80', 'L5 G12 at 44'], [49, '00', 'L5 G12 at 48'],
    [51, '01', 'L5 G12 at 50'], [53, '01', 'L5 G12 at 52'], [55, '01', 'L5 G4 at 54'],
  ];
  for (const [at, octet, fault] of faults) assert.equal(change(at, octet), fault);
  assert.equal(frame.decode(WARNING.slice(0, -2)).fault, 'L5 G1 at 61');
  assert.equal(frame.decode(`${WARNING}00`).fault, 'L4');
  assert.equal(frame.decode('00'.repeat(13)).fault, 'L1');
  assert.equal(frame.decode(WARNING + '00'.repeat(1468)).fault, 'L3');
  assert.equal(frame.decode('0g').fault, 'not hexadecimal');
});

test('speeds, coordinates and times are signed or not, as the layout says', () => {
  const start = WARNING.slice(0, 28 + 32 + 16);
  const end = WARNING.slice(28 + 32 + 48);
  const {packet} = frame.decode(`${start}ffffffffca5b170094b62e00c000ffff${end}`);
  const {tst, lat, lon, pai, speed, heading} = packet;
  assert.deepEqual({tst, lat, lon, pai, speed, heading},
    {tst: 4294967295, lat: -900000000, lon: -1800000000, pai: 1, speed: -16384, heading: 65535});
});

test('a lifetime is a multiplier of 50 ms, 1 s, 10 s or 100 s', () => {
  assert.deepEqual([0x04, 0x05, 0x1a, 0xff].map(frame.lifetimeMillis), [50, 1000, 60000, 6300000]);
});

test('the sine table is that of the profile', () => {
  const table = `0,175,349,523,698,872,1045,1219,1392,1564,1736,1908,2079,2250,2419,2588,2756,2924,
    3090,3256,3420,3584,3746,3907,4067,4226,4384,4540,4695,4848,5000,5150,5299,5446,5592,5736,5878,
    6018,6157,6293,6428,6561,6691,6820,6947,7071,7193,7314,7431,7547,7660,7771,7880,7986,8090,8192,
    8290,8387,8480,8572,8660,8746,8829,8910,8988,9063,9135,9205,9272,9336,9397,9455,9511,9563,9613,
    9659,9703,9744,9781,9816,9848,9877,9903,9925,9945,9962,9976,9986,9994,9998,10000`;
  assert.deepEqual(Array.from({length: 91}, (_, t) => geo.sine(t)), table.split(',').map(Number));
  assert.deepEqual([91, 180, 270, 359].map(geo.sine), [9998, 0, -10000, -175]);
  assert.equal(geo.longitudeScale(450000000), 7071);
  assert.equal(geo.longitudeScale(455000000), 7009);
  const from = {lat: 450000000, lon: 0};
  assert.equal(geo.offset(from, {lat: 450000000, lon: 10000000}).east, 7871437n);
});

test('an area holds a place up to its border', () => {
  const holds = (shape, lat, lon, a, b, angle, place) =>
    geo.contains({shape, lat, lon, a, b, angle}, {lat: place[0], lon: place[1]});
  assert.equal(holds('circle', 0, 0, 10, 0, 0, [899, 0]), true);
  assert.equal(holds('circle', 0, 0, 10, 0, 0, [900, 0]), false);
  assert.equal(holds('rectangle', 0, 0, 100, 10, 90, [0, 4492]), true);
  assert.equal(holds('rectangle', 0, 0, 100, 10, 90, [4492, 0]), false);
  assert.equal(holds('circle', 0, 1800000000, 1, 0, 0, [0, -1800000000]), true);
  assert.equal(holds('ellipse', 900000000, 0, 2, 1, 0, [900000000, 1234567]), true);
  assert.equal(holds('ellipse', 0, 0, 100, 50, 0, [5390, 3594]), true);
  assert.equal(holds('ellipse', 0, 0, 100, 50, 0, [5390, 3595]), false);
});

test('an area is drawn where the stations have it', () => {
  const areas = [
    {shape: 'circle', a: 300, b: 0, angle: 0}, {shape: 'rectangle', a: 400, b: 90, angle: 74},
    {shape: 'ellipse', a: 400, b: 90, angle: 338}, {shape: 'rectangle', a: 50, b: 400, angle: 200},
  ];
  for (const area of areas.map((size) => ({...size, lat: 0, lon: 0}))) {
    for (const {east, north} of shape.outline(area, 32)) {
      const at = (part) => ({lat: Math.round((part * north) / 0.011132),
        lon: Math.round((part * east) / 0.011132)});
      assert.equal(geo.contains(area, at(0.99)), true, `${area.shape} ${area.angle}`);
      assert.equal(geo.contains(area, at(1.01)), false, `${area.shape} ${area.angle}`);
    }
  }
});

test('the scale bar is a round length', () => {
  const lengths = [0.3, 1, 1.9, 2, 4.99, 9, 10, 499, 500, 99999];
  const rounded = [0.2, 1, 1, 2, 2, 5, 10, 200, 500, 50000];
  assert.deepEqual(lengths.map(shape.roundLength), rounded);
});

test('the four stations run as their scenario says', async () => {
  const run = await read(samples.four());
  const shown = run.events.map((event) =>
    [event.index, event.moment, event.station, words.doing(event), words.entry(event)].join(' '));
  assert.deepEqual(shown, [
    '0 0 3 open opened', '1 1000 0 gbc sent 0', '2 1001 1 deliver 0 accepted sent 1',
    '3 1002 0 deliver 1 ignored own-source', '4 1002 2 deliver 1 accepted sent 2',
    '5 1003 1 deliver 2 ignored duplicate',
    '6 1003 3 deliver 2 accepted port 2002 info 0 6869 sent 3',
    '7 1004 2 deliver 3 ignored duplicate',
  ]);
});

test('the figures of the four stations are those of their summary', async () => {
  const run = await read(samples.four());
  const [send, ...others] = way.follow(run).sends;
  assert.deepEqual(others, []);
  assert.deepEqual(way.figures(run, send), {moment: '1000', station: 0, do: 'gbc', port: 2002,
    delivered: 1, frames: 4, hops: 3, last: '3'});
  assert.deepEqual(why.judge(run, send).inside, [3]);
  assert.deepEqual(way.total(run),
    {events: 8, frames: 4, deliveries: 1, duplicates: 2, ignored: 1, refused: 0});
  const steps = way.tree(run, send);
  assert.deepEqual(steps.map(({station, hop, delivered, duplicates}) =>
    [station, hop, delivered, duplicates]),
  [[0, 0, false, 0], [1, 1, false, 0], [2, 2, false, 1], [3, 3, true, 1]]);
  assert.deepEqual(Array.from(way.deliveries(run, send)), [2, 3, 4, 5, 6, 7]);
  assert.equal(way.end(run, send), 7);
});

test('a station delivers a send twice, and is counted once', async () => {
  const sent = '{"event":0,"moment":5,"station":0,"do":"gbc","result":"sent","sent":0,' +
    `"octets":"${WARNING}"}`;
  const taken = (event, moment) => `{"event":${event},"moment":${moment},"station":1,` +
    '"do":"deliver","frame":0,"result":"accepted","port":2002,"info":0,"payload":""}';
  const run = await read([HEAD, sent, taken(1, 9), taken(2, 30009), ''].join('\n'));
  const {delivered, hops, last, frames} = way.figures(run, way.follow(run).sends[0]);
  assert.deepEqual({delivered, hops, last, frames}, {delivered: 1, hops: 1, last: '4', frames: 1});
  assert.equal(way.total(run).deliveries, 2);
  assert.equal(words.entry(run.events.at(1)), 'accepted port 2002 info 0 -');
});

test('moments past what a number holds are exact', async () => {
  const line = (event, moment) =>
    `{"event":${event},"moment":${moment},"station":0,"do":"tick","result":"quiet"}`;
  const text = [HEAD, line(0, '4611686018427387903'), line(1, '4611686018427387904')].join('\n');
  const run = await read(text);
  assert.equal(run.moment(0), '4611686018427387903');
  assert.equal(run.elapsed(0, 1), 1n);
});

test('stations stand where they last moved, a refused move aside', async () => {
  const move = (event, lat, result) => `{"event":${event},"moment":${event},"station":0,` +
    `"do":"move","lat":${lat},"lon":7,${result}}`;
  const text = [HEAD, move(0, 10, '"result":"moved"'),
    move(1, 20, '"result":"refused","code":"S1","reason":"earlier than the clock"'),
    move(2, 30, '"result":"moved"')].join('\n');
  const run = await read(text);
  assert.deepEqual([-1, 0, 1, 2].map((at) => run.placeAt(0, at).lat), [0, 10, 10, 30]);
  assert.deepEqual(run.trail(0, 2).map(({lat}) => lat), [0, 10, 30]);
  assert.equal(words.entry(run.events.at(1)), 'refused S1');
  assert.equal(run.events.at(1).reason, 'earlier than the clock');
});

test('lines are whole wherever the text was cut into pieces', async () => {
  const text = samples.four();
  for (const size of [1, 7, 100]) {
    const count = Math.ceil(text.length / size);
    const pieces = Array.from({length: count}, (_, i) => text.slice(i * size, (i + 1) * size));
    const run = await read(...pieces);
    assert.equal(run.events.length, 8);
  }
});

test('a line without an end is refused before it fills the memory', async () => {
  let pieces = 0;
  const endless = reading.read((async function* () {
    for (; pieces < 64; pieces += 1) yield new Uint8Array(1 << 20).fill(120);
  })());
  await assert.rejects(endless, /a line is too long/);
  assert.ok(pieces < 20);
});

test('what is no run is refused with a sentence', async () => {
  const open = '{"event":0,"moment":0,"station":0,"do":"open","result":"opened"}';
  const cases = [
    ['', /it’s empty/], ['\x89PNG\r\n', /the first line isn’t a JSON object/],
    ['[]\n', /the first line isn’t a JSON object/], ['{"a":1}\n', /has no “stations”/],
    ['{"send":1,"moment":2}\n', /summary/], ['{"stations":[{}]}\n', /station 0 has no valid address/],
    ['{"stations":[{"address":"1400020000000001","lat":900000001,"lon":0}]}', /no valid position/],
    [`${HEAD}\n${open.slice(0, 20)}`, /^Line 2 .* cut/], [`${HEAD}\n\n`, /^Line 2 /],
    [`${HEAD}\n${open}\n${open}\n`, /^Line 3 .*“event” isn’t 1/],
    [`${HEAD}\n${open.replace('"moment":0', '"moment":-1')}`, /“moment”/],
    [`${HEAD}\n${open.replace('"station":0', '"station":"0"')}`, /“station”/],
    [`${HEAD}\n${open.replace('open"', 'fly"')}`, /“do”/],
    [`${HEAD}\n${open.replace('open"', 'constructor"')}`, /“do”/],
    [`${HEAD}\n{"note":"gone","moment":1}`, /“note” is unknown/],
    [`${HEAD}\n{"note":"lost","moment":1,"station":0}`, /“frame”/],
    [`${HEAD}\n{"station":2,"address":"1400020000000003","lat":0,"lon":0}`, /isn’t 1/],
    [HEAD.replace('}]}', '}],"air":{}}'), /“range” of “air” is missing/],
    [`${HEAD}\n{"send":1,"missed":[1]}`, /“missed”/],
    [`${HEAD}\n${open.replace('opened', 'gone')}`, /“result”/],
    [`${HEAD}\n${open.replace('opened"', 'sent","sent":1')}`, /“sent” isn’t 0/],
    [`${HEAD}\n${open.replace('opened"', 'sent","sent":0,"octets":"0"')}`, /“octets”/],
    [`${HEAD}\n${open.replace('opened', 'ignored')}`, /“why”/],
    [`${HEAD}\n${open.replace('opened"', 'ignored","why":"duplicate","cancels":7')}`, /“cancels”/],
    [`${HEAD}\n${open.replace('opened"', 'accepted","waits":1,"until":9')}`, /“waits” isn’t 0/],
    [`${HEAD}\n${open.replace('opened"', 'accepted","waits":0,"until":-9,"octets":""')}`, /“until”/],
    [`${HEAD}\n{"note":"released","moment":1,"station":0}`, /“frame”/],
    [`${HEAD}\n${open.replace('opened', 'refused')}`, /“code”/],
    [`${HEAD}\n${open.replace('open"', 'deliver"')}`, /“frame”/],
    [`${HEAD}\n${open.replace('open"', 'move"')}`, /position of the move is missing/],
  ];
  for (const [text, sentence] of cases) {
    await assert.rejects(read(text), (fault) => {
      assert.ok(fault instanceof reading.RunFault, String(fault.stack));
      assert.match(fault.message, sentence);
      return true;
    });
  }
});

test('a frame that no station gave, and a station that is not there, are no trouble', async () => {
  const text = [HEAD,
    '{"event":0,"moment":0,"station":0,"do":"deliver","frame":9,"result":"refused","code":"M3"}',
    '{"event":1,"moment":0,"station":9,"do":"tick","result":"refused","code":"M4"}'].join('\n');
  const early = text.replace('"frame":9', '"frame":0') + '\n{"event":2,"moment":1,"station":0,' +
    `"do":"gbc","result":"sent","sent":0,"octets":"${WARNING}"}`;
  assert.equal((await read(early)).deliveries.of(0).length, 0);
  const run = await read(text);
  assert.deepEqual(way.follow(run).sends, []);
  assert.equal(way.total(run).refused, 2);
});

test('the kept samples and the page’s own are what their maker makes', () => {
  for (const name of ['four', 'road']) {
    const kept = fs.readFileSync(path.join(samples.DATA, `${name}.jsonl`), 'utf8');
    assert.equal(kept, samples[name]());
  }
  assert.equal(fs.readFileSync(path.join(TOP, 'sample.js'), 'utf8'), samples.pageSample());
});

test('text is as strong as WCAG AA asks, light and dark', () => {
  const css = fs.readFileSync(path.join(TOP, 'style.css'), 'utf8');
  const colours = (block) => Object.fromEntries(
    [...block.matchAll(/--([\w-]+): (#\w{6})/g)].map(([, name, value]) => [name, value]));
  const [light, dark] = css.match(/:root \{[^}]*\}/g).map(colours);
  const luminance = (colour) => {
    const [r, g, b] = [1, 3, 5].map((at) => {
      const part = parseInt(colour.slice(at, at + 2), 16) / 255;
      return part <= 0.04045 ? part / 12.92 : ((part + 0.055) / 1.055) ** 2.4;
    });
    return 0.2126 * r + 0.7152 * g + 0.0722 * b;
  };
  const ratio = (a, b) => {
    const [dim, bright] = [luminance(a), luminance(b)].sort((x, y) => x - y);
    return (bright + 0.05) / (dim + 0.05);
  };
  const dots = ['idle', 'accepted', 'delivered', 'sender'];
  const pairs = [['on-accent', ['accent']], ['on-dot', dots]];
  for (const ink of ['text', 'quiet', 'accepted', 'delivered', 'refused']) {
    pairs.push([ink, ['panel', 'ground', 'mark']]);
  }
  for (const look of [light, {...light, ...dark}]) {
    for (const [ink, grounds] of pairs) {
      for (const ground of grounds) {
        const found = ratio(look[ink], look[ground]);
        assert.ok(found >= 4.5, `${ink} on ${ground}: ${found.toFixed(2)}`);
      }
    }
    for (const line of ['accepted', 'duplicate', 'refused', 'area', 'idle', 'held']) {
      const found = ratio(look[line], look.map);
      assert.ok(found >= 3, `${line} on the map: ${found.toFixed(2)}`);
    }
  }
});

test('the page takes nothing from elsewhere and puts no data in as markup', () => {
  for (const name of fs.readdirSync(TOP).filter((file) => /\.(js|html|css)$/.test(file))) {
    const text = fs.readFileSync(path.join(TOP, name), 'utf8');
    const markup = /innerHTML|outerHTML|insertAdjacentHTML|document\.write|\beval\b/;
    assert.doesNotMatch(text, markup, name);
    assert.doesNotMatch(text.replace('http://www.w3.org/2000/svg', ''), /https?:\/\//, name);
    if (name.endsWith('.js')) assert.match(text, /^\/\/! [A-Z]/, name);
  }
});

test('names lie apart from each other and from the marks of others', () => {
  const {placed, overlap} = geostation.names;
  let state = 7;
  const draw = (below) => {
    state = (state * 48271) % 2147483647;
    return state % below;
  };
  const items = Array.from({length: 60}, (_, station) => ({station, text: `v${station}`,
    x: draw(300), y: draw(300), radius: 8, role: station === 0 ? 'sender' : ''}));
  const found = placed(items);
  assert.ok(found.size > 20 && found.size < 60, `${found.size}`);
  assert.ok(found.has(0));
  const boxes = [...found].map(([station, {box}]) => ({station, box}));
  for (const {station, box} of boxes) {
    assert.ok(boxes.every((other) => other.station === station || !overlap(box, other.box)));
    const others = items.filter((item) => item.station !== station);
    assert.ok(others.every(({x, y}) =>
      !overlap(box, {left: x - 8, right: x + 8, top: y - 8, bottom: y + 8})));
  }
});

test('a name stands in its mark if it fits there, and the sender has room first', () => {
  const {placed} = geostation.names;
  const at = (station, text, x, role = '') => ({station, text, x, y: 50, radius: 8, role});
  const [short, long] = [placed([at(0, '42', 50)]), placed([at(0, 'lorry', 50)])];
  assert.deepEqual([short.get(0).isInside, short.get(0).x], [true, 50]);
  assert.equal(long.get(0).isInside, false);
  assert.ok(long.get(0).y < 50 - 8);
  // Nine stations at one place: there is no room for all, whoever comes first.
  const crowd = Array.from({length: 9}, (_, i) => at(i, 'vehicle', 50, i === 8 ? 'sender' : ''));
  assert.ok(placed(crowd).has(8));
  assert.ok(placed(crowd).size < 9);
});

test('a station that has not come has not left', async () => {
  const run = await read('{"stations":[]}\n', ['a', 'b'].map((id, station) =>
    JSON.stringify({station, id, address: `140002010000000${station + 1}`, lat: 0, lon: 0}) + '\n' +
    JSON.stringify({event: station, moment: station, station, do: 'move', lat: 0, lon: 0,
      result: 'moved'}) + '\n' +
    JSON.stringify({note: 'came', moment: station, station}) + '\n').join(''),
  '{"note":"left","moment":9,"station":0}\n');
  const states = (station) => [[0, 0], [1, 0], [2, 1], [3, 1]].map(([noted, at]) =>
    run.presence.stateOf(station, noted, at));
  assert.deepEqual(states(0), ['expected', 'there', 'there', 'left']);
  assert.deepEqual(states(1), ['expected', 'expected', 'there', 'there']);
  assert.deepEqual([run.find('b'), run.find('1'), run.find('c')], [1, undefined, undefined]);
});

test('the axis has round times, as many as there is room for', () => {
  const {ticks, speed} = geostation.clock;
  const texts = (times, choice, most) =>
    ticks(Float64Array.from(times), speed(choice), most).map(({text}) => text);
  assert.deepEqual(texts([0, 30000], 'x1', 6),
    ['0 s', '5 s', '10 s', '15 s', '20 s', '25 s', '30 s']);
  assert.deepEqual(texts([1900, 2600], 'x1', 4), ['2.0 s', '2.2 s', '2.4 s', '2.6 s']);
  assert.deepEqual(texts([2000, 2004], 'x1', 9),
    ['2.000 s', '2.001 s', '2.002 s', '2.003 s', '2.004 s']);
  assert.deepEqual(texts([0, 7200000], 'x10', 4), ['0 s', '2000 s', '4000 s', '6000 s']);
  assert.deepEqual(texts([5], 'x1', 9), []);
  const parts = ticks(Float64Array.of(0, 30000), speed('x1'), 3).map(({part}) => part);
  assert.deepEqual(parts.map((part) => part.toFixed(2)), ['0.00', '0.33', '0.67', '1.00']);
  // By events each event has as much room as the next, whatever its time.
  assert.deepEqual(texts([0, 1000, 1001, 1002, 1003], '8', 3), ['0.000 s', '1.001 s', '1.003 s']);
});
