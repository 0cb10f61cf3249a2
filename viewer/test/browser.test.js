//! The page in a real browser: what it shows of the samples, its keys and clicks, and what it says
//! of a file that is no run.

'use strict';

const assert = require('node:assert/strict');
const fs = require('node:fs');
const http = require('node:http');
const os = require('node:os');
const path = require('node:path');
const {after, before, beforeEach, test} = require('node:test');
const {pathToFileURL} = require('node:url');
const {Page, findBrowser} = require('./devtools.js');
const {TOP} = require('./load.js');
const contending = require('./contending.js');
const reports = require('./reports.js');
const samples = require('./samples.js');
const {elementOf, whole} = require('./whole.js');

const URL_OF_PAGE = pathToFileURL(path.join(TOP, 'index.html')).href;
const FOUR = path.join(samples.DATA, 'four.jsonl');
const ROAD = path.join(samples.DATA, 'road.jsonl');
const SHIFT = 8;

let page;
let room;

before(async () => {
  room = fs.mkdtempSync(path.join(os.tmpdir(), 'runs-'));
  page = await Page.start(findBrowser());
});

after(async () => {
  await page.end();
  fs.rmSync(room, {recursive: true});
});

beforeEach(async () => {
  await page.look(1280, 800, false);
  await page.go(URL_OF_PAGE);
  page.faults.length = 0;
});

/** Chooses a file and waits until it is shown. */
async function show(file) {
  await page.choose(file);
  const name = JSON.stringify(path.basename(file));
  await page.until(`document.getElementById('name').textContent === ${name}`);
}

/** The text of an element. */
function text(selector) {
  return page.value(`document.querySelector(${JSON.stringify(selector)}).textContent`);
}

/** How many elements are in sight. */
function count(selector) {
  return page.value(`[...document.querySelectorAll(${JSON.stringify(selector)})]
    .filter((element) => element.style.display !== 'none').length`);
}

/** The text of each row of a list that is in the page, its parts parted by a space. */
function rows(list) {
  return page.value(`[...document.querySelectorAll('#${list} .row')].map((row) =>
    [...row.childNodes].map((part) => part.textContent).join(' '))`);
}

/** The figures of the chosen send. */
function figures() {
  return page.value(`Object.fromEntries([...document.querySelectorAll('#figures div')]
    .map((pair) => [...pair.children].map((part) => part.textContent)))`);
}

/** Chooses what is listed. @param {'kind' | 'result'} id @param {string} value */
function pick(id, value) {
  return page.value(`(() => {
    document.getElementById('${id}').value = '${value}';
    document.getElementById('${id}').dispatchEvent(new Event('change'));
  })()`);
}

/** Clicks at the middle of a line of the map. @param {string} selector */
async function clickLine(selector) {
  const [x, y] = await page.value(`(() => {
    const line = document.querySelector(${JSON.stringify(selector)});
    const {x, y} = line.getPointAtLength(line.getTotalLength() / 2);
    const box = document.getElementById('map').getBoundingClientRect();
    return [box.x + x, box.y + y];
  })()`);
  await page.clickAt(x, y);
}

function noFault() {
  assert.deepEqual(page.faults, []);
}

test('a page with a run in it opens that, from wherever it lies', async () => {
  await show(FOUR);
  const totals = await text('#totals');
  const file = path.join(room, 'run.html');
  fs.writeFileSync(file, whole(elementOf('a &lt;run>', fs.readFileSync(FOUR, 'utf8'))));
  await page.go(pathToFileURL(file).href);
  await page.until(`document.getElementById('name').textContent === 'a <run>'`);
  assert.equal(await text('#totals'), totals);
  assert.equal(await count('.station'), 4);
  assert.equal(await page.value(`document.getElementById('inside') === null`), true);
  await page.go(`${pathToFileURL(file).href}?again#event=3`);
  await page.until('document.getElementById("present").textContent.startsWith("Event 3,")');
  noFault();
});

/** Opens a page that is written for it. @param {string} name @param {string} text */
async function openPage(name, text) {
  const file = path.join(room, name);
  fs.writeFileSync(file, text);
  await page.go(pathToFileURL(file).href);
}

test('a page whose run can’t be read says so, and doesn’t greet in silence', async () => {
  const fault = async (element) => {
    await openPage('faulty.html', whole(element));
    await page.until(`!document.getElementById('fault').hidden`);
    return text('#fault');
  };
  const run = fs.readFileSync(FOUR, 'utf8');
  assert.match(await fault(elementOf('a.toml', run.slice(0, 900))), /^a\.toml: Line \d+ .* cut\.$/);
  assert.match(await fault(elementOf('a.toml', 'words\n')), /first line isn’t a JSON object/);
  assert.match(await fault(elementOf('a.toml', '')), /^a\.toml: This page holds a run, but/);
  assert.match(await fault('<script type="application/jsonl" id="inside" data-name="a.toml" ' +
    'data-large="scenario"></script>'), /^a\.toml: The run of this scenario is too large/);
  assert.equal(await page.value('document.getElementById("loading")'), null);
  noFault();
});

test('a page that is cut before its scripts end says so', async () => {
  const file = path.join(room, 'cut.html');
  const uncut = whole(elementOf('a.toml', fs.readFileSync(FOUR, 'utf8')));
  fs.writeFileSync(file, uncut.slice(0, uncut.indexOf('"event":3')));
  await page.call('Page.navigate', {url: pathToFileURL(file).href});
  await page.until(`!!document.getElementById('loading') &&
    getComputedStyle(document.getElementById('loading')).visibility === 'visible'`);
  assert.match(await text('#loading'), /the file of the page is cut/);
});

test('four stations: counts, figures, the tree of hops', async () => {
  await show(FOUR);
  assert.equal(await text('#totals'), '4 stations · 8 events · 4 frames · 1 delivery · ' +
    '2 duplicates · 1 ignored otherwise · 0 refused');
  assert.equal(await count('.station'), 4);
  assert.deepEqual(await figures(), {'delivered at': '1', 'in the area': '1', frames: '4',
    hops: '3', last: '3 ms', 'dup./delivery': '2.0'});
  assert.deepEqual(await rows('tree'), [
    'station 0 sent it +0 ms', 'station 1 accepted, forwarded +1 ms',
    'station 2 accepted, forwarded, 1 duplicate +2 ms',
    'station 3 delivered, forwarded, 1 duplicate +3 ms',
  ]);
  assert.deepEqual(await rows('sends'),
    ['All frames, in order', '1000 0 gbc port 2002, 1 of 1 reached']);
  noFault();
});

test('steps by keys draw the frames so far', async () => {
  await show(FOUR);
  assert.match(await text('#present'), /^Event 7,/);
  await page.press('Home');
  assert.equal(await count('g.link'), 0);
  for (let i = 0; i < 6; i += 1) await page.press('ArrowRight');
  assert.equal(await text('#present'), 'Event 6, 1003 ms, station 3: deliver 2, ' +
    'accepted port 2002 info 0 6869 sent 3');
  assert.equal(await count('g.link.accepted'), 3);
  assert.equal(await count('g.link.duplicate'), 1);
  assert.equal(await count('g.link.other'), 1);
  assert.equal(await count('.station.delivered'), 1);
  assert.equal(await count('.station.sender'), 1);
  await page.press('ArrowLeft');
  assert.match(await text('#present'), /^Event 5, 1003 ms, station 1: .* ignored duplicate$/);
  assert.equal(await count('.station.delivered'), 0);
  await page.press('End');
  assert.match(await text('#present'), /^Event 7,/);
  await page.press('Home');
  assert.match(await text('#present'), /^Event 0,/);
  noFault();
});

test('a click on a station lists its events, a click again all', async () => {
  await show(FOUR);
  await page.click('.station[data-station="2"]');
  assert.deepEqual(await rows('events'),
    ['1002 2 deliver 1 accepted sent 2', '1004 2 deliver 3 ignored duplicate']);
  assert.equal(await page.value('document.getElementById("station").value'), '2');
  await page.press('Home');
  assert.match(await text('#present'), /^Event 4,/);
  await page.press('ArrowRight');
  assert.match(await text('#present'), /^Event 7,/);
  await page.click('.station[data-station="2"]');
  assert.equal((await rows('events')).at(-1), '1004 2 deliver 3 ignored duplicate');
  assert.equal(await page.value('geostation.app.state.station'), undefined);
  noFault();
});

test('a click on a frame shows its packet', async () => {
  await show(FOUR);
  await page.press('End');
  await clickLine('g.link[data-frame="2"].accepted .seen');
  assert.equal(await text('#packet .fate'), 'Frame 2, sent by station 2 at 1002 ms: ' +
    '1 accepted it, 1 ignored it, 0 refused it.');
  const shown = await text('#packet .fields');
  for (const words of ['6869 “hi”', 'circle, 100 m, at 0.0108000°, 0.0000000°', '8 of 10',
    '1400020000000001', '2002, 0', '60 s', '020000000003, all']) {
    assert.ok(shown.includes(words), words);
  }
  noFault();
});

test('a click on an event and on a hop goes there', async () => {
  await show(FOUR);
  await page.click('#events [data-index="6"]');
  assert.match(await text('#present'), /^Event 6,/);
  await page.click('#tree .row:nth-child(2)');
  assert.match(await text('#present'), /^Event 2,/);
  noFault();
});

test('the path of a warning in a dense run, the sender above all', async () => {
  const file = path.join(room, 'dense.jsonl');
  fs.writeFileSync(file, samples.dense());
  await show(file);
  const kinds = await page.value('geostation.app.map.scene.links.map(({kind}) => kind)');
  assert.equal(kinds.length, 400);
  assert.ok(kinds.slice(-99).every((kind) => kind === 'accepted'));
  assert.match(await text('#unseen'), /^Not drawn: 1,054 of 1,454 arcs; /);
  const top = await page.value(`(() => {
    const sender = document.querySelector('.station.sender');
    const {x, y, width, height} = sender.getBoundingClientRect();
    const found = document.elementFromPoint(x + width / 2, y + height / 2);
    return [found === sender, document.querySelectorAll('.stations .sender').length];
  })()`);
  assert.deepEqual(top, [true, 0]);
  // Another warning's sender goes above in its turn, and this one back.
  await page.value('document.getElementById("sends").scrollTop = 0');
  await page.click('#sends [data-index="0"]');
  assert.equal(await page.value('document.querySelectorAll("g.sender *").length'), 0);
  noFault();
});

test('stations differ by shape, and frames by their line', async () => {
  await show(samples.COMERS);
  const marks = await page.value(`['sender', 'delivered', 'reached', 'missed', 'away']
    .map((role) => document.querySelector('.station.' + role).getAttribute('d')
      .replace(/[0-9.-]+/g, '').replace(/ /g, ''))`);
  // Ten corners, four, four, three, and a circle; the square and the diamond are turned.
  assert.deepEqual(marks, ['MLLLLLLLLLz', 'MLLLz', 'MLLLz', 'MLLz', 'Maaz']);
  const first = await page.value(`['delivered', 'reached'].map((role) =>
    Number(/^M([0-9.-]+)/.exec(document.querySelector('.station.' + role).getAttribute('d'))[1]))`);
  assert.ok(first[0] > 5 && first[1] === 0, `${first}`);
  assert.deepEqual(await page.value(`[...document.querySelectorAll('.key [data-mark]')].map((key) =>
    key.getAttribute('d').replace(/[0-9.-]+/g, '').replace(/ /g, ''))`),
  ['MLLLLLLLLLz', 'MLLLz', 'MLLLz', 'MLLz', 'Maaz', 'Maaz']);
  noFault();
});

test('a street net is drawn beneath the run', async () => {
  const net = path.join(room, 'town.net.xml');
  // A street of 1 km from station 0 of the four to the north, in the zone 31 of UTM.
  fs.writeFileSync(net, '<net><location netOffset="0,0" projParameter="+proj=utm +zone=31"/>' +
    '<edge id="a"><lane id="a_0" shape="166021.443,0 166021.443,1000"/></edge></net>');
  await page.choose(net);
  await page.until('!document.getElementById("fault").hidden');
  assert.equal(await text('#fault'),
    'town.net.xml: A street net goes with a run. Open the run first.');
  await show(FOUR);
  await page.choose(net);
  await page.until('geostation.app.map.ground.streets.length === 1');
  const ends = await page.value(`(() => {
    const canvas = document.getElementById('streets');
    const {data} = canvas.getContext('2d').getImageData(0, 0, canvas.width, canvas.height);
    let [west, east, top, bottom] = [Infinity, 0, Infinity, 0];
    data.forEach((value, i) => {
      if (i % 4 !== 3 || value < 128) return;
      const [x, y] = [((i - 3) / 4) % canvas.width, Math.floor((i - 3) / 4 / canvas.width)];
      [west, east] = [Math.min(west, x), Math.max(east, x + 1)];
      [top, bottom] = [Math.min(top, y), Math.max(bottom, y + 1)];
    });
    const {e, f} = document.querySelector('[data-station="0"]').transform.baseVal[0].matrix;
    const bar = document.querySelector('.bar').getBBox().width;
    return {dx: (west + east) / 2 - e, dy: bottom - f, high: (bottom - top) / bar,
      metres: document.querySelector('.bar-text').textContent};
  })()`);
  assert.ok(Math.abs(ends.dx) < 1.5 && Math.abs(ends.dy) < 3, JSON.stringify(ends));
  assert.ok(Math.abs(ends.high * parseFloat(ends.metres) - 1000) < 15, JSON.stringify(ends));
  const saved = await page.value('geostation.saving.textOf(geostation.app.map)');
  assert.match(saved, /<path d="M[0-9.]+ [0-9.]+L[0-9.]+ [0-9.]+" fill="none" stroke="#d5dde6"/);
  fs.writeFileSync(net, '<net><location netOffset="0,0" projParameter="!"/></net>');
  await page.choose(net);
  await page.until('!document.getElementById("fault").hidden');
  assert.match(await text('#fault'), /no place on earth/);
  noFault();
});

test('a page with a street net in it shows that beneath the run', async () => {
  const net = '<script type="text/plain" id="net" data-name="town.net.xml">\n\\u003cnet>' +
    '\\u003clocation netOffset="0,0" projParameter="+proj=utm +zone=31"/>\\u003cedge id="a">' +
    '\\u003clane id="a_0" shape="166021.443,0 166021.443,1000"/>\\u003c/edge>\\u003c/net>\n</script>';
  await openPage('net.html', whole(`${elementOf('a', fs.readFileSync(FOUR, 'utf8'))}\n${net}`));
  await page.until('geostation.app?.map.ground.streets.length === 1');
  assert.equal(await page.value('document.getElementById("fault").hidden'), true);
  assert.equal(await page.value('document.getElementById("net")'), null);
  noFault();
});

test('the map is saved as SVG, with its looks in it', async () => {
  await show(samples.COMERS);
  const saved = await page.value(`(() => {
    const text = geostation.saving.textOf(geostation.app.map, 'at 2004 ms');
    const file = new DOMParser().parseFromString(text, 'image/svg+xml');
    const stars = [...file.querySelectorAll('path')].filter((mark) =>
      mark.getAttribute('d').split('L').length === 10);
    const own = [...file.documentElement.children].filter(({tagName}) => tagName === 'text');
    return {faults: file.querySelectorAll('parsererror').length, text,
      stars: stars.map((mark) => mark.getAttribute('fill')),
      below: own.map(({textContent}) => textContent),
      heights: [...file.querySelectorAll('svg')].map((svg) => Number(svg.getAttribute('height'))),
      lowest: Math.max(...own.map((text) => Number(text.getAttribute('y'))))};
  })()`);
  assert.equal(saved.faults, 0);
  // The sender's, and that of the legend, which lies below the map with the caption.
  assert.deepEqual(saved.stars, ['rgb(179, 69, 14)', 'rgb(179, 69, 14)']);
  assert.deepEqual(saved.below, ['at 2004 ms', 'sender', 'delivered', 'accepted', 'not reached',
    'bystander', 'away', 'first copy', 'ignored', 'refused', 'lost']);
  const [whole, map] = saved.heights;
  assert.ok(map < saved.lowest && saved.lowest < whole, `${saved.heights} ${saved.lowest}`);
  assert.match(saved.text, /^<\?xml version="1\.0" encoding="UTF-8"\?>\n<svg xmlns=/);
  assert.match(saved.text, /marker-end="url\(#tip-accepted\)"/);
  assert.doesNotMatch(saved.text, /var\(|class=|file:/);
  const file = await page.value(`new Promise((done) => {
    HTMLAnchorElement.prototype.click = async function () {
      done([this.download, await (await fetch(this.href)).text()]);
    };
    document.getElementById('save').click();
  })`);
  assert.equal(file[0], 'comers.jsonl.svg');
  const caption = 'comers.jsonl · at 2004 ms · warning of station 0, sent at 2000 ms';
  assert.ok(file[1].includes(`>${caption}<`));
  noFault();
});

test('a road: areas of each shape, trails, another send', async () => {
  await show(ROAD);
  assert.equal(await count('.station'), 12);
  const corners = () =>
    page.value('document.querySelector(".area").getAttribute("d").split("L").length');
  assert.equal(await corners(), 4);
  await page.click('#sends .row:nth-child(3)');
  assert.equal(await corners(), 72);
  assert.equal((await figures()).hops, '5');
  await page.press('End');
  assert.equal(await count('.trail'), 12);
  await page.value('document.getElementById("sends").scrollTop = 0');
  await page.until('!!document.querySelector("#sends [data-index=\\"0\\"]")');
  await page.click('#sends [data-index="0"]');
  assert.equal(await page.value('document.getElementById("figures").hidden'), true);
  noFault();
});

test('lines are as long as the scale bar says', async () => {
  await show(FOUR);
  const {bar, words, far} = await page.value(`(() => {
    const at = (i) => document.querySelector('[data-station="' + i + '"]').transform.baseVal[0]
      .matrix.f;
    const bar = document.querySelector('.bar').getBBox().width;
    return {bar, words: document.querySelector('.bar-text').textContent, far: at(0) - at(3)};
  })()`);
  const metres = Number(words.replace(' m', ''));
  assert.ok(Math.abs((far / bar) * metres - 1202.256) < 6, `${far} ${bar} ${words}`);
  noFault();
});

test('space plays to the end and stops', async () => {
  await show(FOUR);
  await page.value('document.getElementById("speed").value = "2"');
  await page.press('Home');
  await page.press(' ');
  const name = 'document.getElementById("play").getAttribute("aria-label")';
  assert.equal(await page.value(name), 'Pause');
  const signs = () => page.value(`['play', 'pause'].filter((sign) =>
    getComputedStyle(document.querySelector('#play .' + sign)).display !== 'none')`);
  assert.deepEqual(await signs(), ['pause']);
  await page.until('geostation.app.state.at === 7');
  await page.until(`${name} === "Play"`);
  assert.deepEqual(await signs(), ['play']);
  noFault();
});

test('it plays by its clock, from a hundredth to ten times as fast', async () => {
  assert.deepEqual(await page.value(`[...document.querySelectorAll('#speed option')]
    .map(({value}) => value)`), ['x0.01', 'x0.1', 'x1', 'x10', '2', '8', '40', '400', '4000']);
  await show(FOUR);
  const at = 'geostation.app.state.at';
  // The first event is at 0, the others are from 1000 ms on: a hundred seconds away, then a tenth.
  await page.value('document.getElementById("speed").value = "x0.01"');
  await page.press('Home');
  await page.press(' ');
  await new Promise((resolve) => setTimeout(resolve, 400));
  assert.equal(await page.value(at), 0);
  await page.value('document.getElementById("speed").value = "x10"');
  await page.until(`${at} === 7`);
  await page.until('!geostation.app.timeline.playing');
  noFault();
});

test('the sample opens by the keyboard alone', async () => {
  for (let i = 0; i < 8; i += 1) {
    await page.press('Tab', 0, {code: 'Tab', windowsVirtualKeyCode: 9});
    if (await page.value('document.activeElement.id') === 'sample') break;
  }
  assert.equal(await page.value('document.activeElement.id'), 'sample');
  await page.press('Enter', 0, {code: 'Enter', windowsVirtualKeyCode: 13, text: '\r'});
  await page.until('document.body.dataset.state === "run"');
  assert.match(await text('#totals'), /^12 stations/);
  noFault();
});

test('why did 11 not get the second warning? two clicks', async () => {
  await page.value('document.getElementById("sample").click()');
  await page.until('document.body.dataset.state === "run"');
  assert.deepEqual(await rows('missed'),
    ['10 lost lost on the channel', '11 unheard no frame in range']);
  assert.equal(await count('.station.sender'), 1);
  assert.equal(await count('.station.delivered'), 1);
  assert.equal(await count('.station.reached'), 8);
  assert.equal(await count('.station.missed'), 2);
  assert.ok(await count('g.link.lost') > 0);
  await page.click('#sends [data-index="2"]');
  await page.click('#missed .row:nth-child(3)');
  assert.match(await text('#why'), /^Station 11 received no frame of it\..* lost at 1\.$/);
  assert.equal(await count('.station.missed'), 3);
  assert.equal(await count('circle.range'), 0);
  await page.click('#range');
  assert.equal(await count('circle.range'), 1);
  const wide = await page.value(`(() => {
    const circle = document.querySelector('circle.range').r.baseVal.value;
    const bar = document.querySelector('.bar').getBBox().width;
    return (circle / bar) * parseFloat(document.querySelector('.bar-text').textContent);
  })()`);
  assert.ok(Math.abs(wide - 500) < 5, `${wide}`);
  noFault();
});

/** The hue of a colour in degrees, undefined of a grey one. @param {string} rgb */
function hue(rgb) {
  const [r, g, b] = rgb.match(/\d+/g).map(Number);
  const [least, most] = [Math.min(r, g, b), Math.max(r, g, b)];
  if (most - least < 40) return undefined;
  const turn = most === r ? (g - b) / (most - least) : most === g ? 2 + (b - r) / (most - least)
    : 4 + (r - g) / (most - least);
  return Math.round(60 * turn + 360) % 360;
}

test('a warning at once: colours and shapes of the stations', async () => {
  await show(samples.COMERS);
  await page.until('document.getAnimations().length === 0');
  const style = (selector, key) => page.value(
    `getComputedStyle(document.querySelector(${JSON.stringify(selector)})).${key}`);
  const within = (value, low, high) => assert.ok(value >= low && value <= high, `${value}`);
  within(hue(await style('.station.sender', 'fill')), 15, 40);
  within(hue(await style('.station.delivered', 'fill')), 120, 160);
  within(hue(await style('.station.reached', 'fill')), 200, 230);
  within(hue(await style('.station.missed', 'stroke')), 0, 10);
  assert.equal(hue(await style('.station.missed', 'fill')), undefined);
  within(hue(await style('g.link.lost .seen', 'stroke')), 0, 10);
  assert.notEqual(await style('g.link.lost .seen', 'strokeDasharray'), 'none');
  assert.equal(await text('.bar-text'), '500 m');
  assert.deepEqual(await page.value(`[...document.querySelectorAll('.legend li')]
    .filter((key) => !key.hidden).map((key) => key.textContent.trim())`), ['sender', 'delivered',
    'accepted', 'not reached', 'bystander', 'away', 'first copy', 'ignored', 'refused', 'lost',
    'range']);
  noFault();
});

test('stations that come and leave: drawn faint while they are away, told by notes', async () => {
  await show(FOUR);
  assert.equal(await page.value('document.getElementById("away").hidden'), true);
  await show(samples.COMERS);
  assert.equal(await page.value('document.getElementById("away").hidden'), false);
  const away = () => page.value(`[...document.querySelectorAll('.station.away')]
    .filter(({style}) => style.display !== 'none').map(({dataset}) => Number(dataset.station))
    .sort()`);
  // Stations 5 and 7 have not come yet: they have no mark.
  assert.deepEqual(await away(), []);
  assert.equal(await text('#unseen'), 'Not drawn: 2 stations that have not come.');
  assert.notEqual(await page.value(
    'getComputedStyle(document.querySelector(".station.away")).strokeDasharray'), 'none');
  assert.equal(await count('.station.missed'), 1);
  await pick('kind', 'came');
  assert.deepEqual(await rows('events'),
    ['2500 5 came present from now on', '5200 6 came present from now on']);
  await page.click('#events [data-index="0"]');
  assert.equal(await text('#present'), 'Note, 2500 ms, station 5: came, present from now on');
  assert.deepEqual(await away(), []);
  assert.equal(await text('#unseen'), 'Not drawn: 1 station that has not come.');
  await page.press('ArrowLeft');
  await pick('kind', 'left');
  const left = `document.querySelector('#events [data-index="0"]')`;
  assert.equal(await page.value(`getComputedStyle(${left}).flexDirection`), 'row');
  await page.click('#events [data-index="0"]');
  assert.deepEqual(await away(), [6]);
  assert.equal(await count('.station.active'), 1);
  noFault();
});

test('what was lost is listed and drawn at its sending', async () => {
  await show(samples.COMERS);
  await pick('kind', 'gbc');
  await pick('result', 'lost');
  await page.click('#events [data-index="0"]');
  const words = await text('#present');
  const [, station, frame] = /station (\d): lost (\d+), sent by station \d$/.exec(words);
  assert.equal(await count(`g.link.lost.new[data-frame="${frame}"]`), 1);
  assert.ok((await text('#packet .fate')).startsWith(`Frame ${frame}, sent by station`));
  assert.match(await text('#packet .fate'), / 1 lost it\.$/);
  const active = 'document.querySelector(".station.active").dataset.station';
  assert.equal(await page.value(active), station);
  await page.press('ArrowRight');
  assert.match(await text('#present'), /^Note, .* lost \d+, /);
  assert.notEqual(await text('#present'), words);
  // That of a relay, which was itself given for another frame, stands alone too.
  await page.click('#sends [data-index="1"]');
  await clickLine('g.link.lost .seen');
  assert.equal(await count('#packet .frame'), 1);
  assert.match(await text('#packet .fate'), /^Frame \d+, sent by station [1-4] .* 1 lost it\.$/);
  // Along all that is listed an arrow goes from an event to the note behind it, and on.
  await page.click('#all');
  await page.click('#sends [data-index="4"]');
  await page.press('ArrowRight');
  assert.match(await text('#present'), /^Note, 6000 ms, station 1: lost 28/);
  await page.press('ArrowLeft');
  assert.match(await text('#present'), /^Event 61, 6000 ms, station 0: gbc, sent 28$/);
  noFault();
});

test('a ring while a station holds a frame, a crossed one where it was cancelled', async () => {
  const file = path.join(room, 'contending.jsonl');
  fs.writeFileSync(file, contending.textOf(contending.CANCELLED));
  await show(file);
  assert.match(await text('#totals'), / · 2 frames · .* · 2 held · 1 cancelled$/);
  const keys = () => page.value(`['held', 'cancelled'].map((id) =>
    document.getElementById(id).hidden ? '' : document.getElementById(id).textContent.trim())`);
  assert.deepEqual(await keys(), ['holds a frame', 'cancelled']);
  /** Each ring: the station around which it lies, and whether it is crossed. */
  const rings = () => page.value(`(() => {
    const at = (shape) => shape.getAttribute('transform');
    const stations = [...document.querySelectorAll('.station')];
    return [...document.querySelectorAll('.hold[transform]')]
      .filter(({style}) => style.display !== 'none')
      .map((ring) => [Number(stations.find((one) => at(one) === at(ring)).dataset.station),
        /M.*M/.test(ring.getAttribute('d')), ring.getAttribute('class')]).sort();
  })()`);
  // The run is opened at the last delivery of its warning, which cancels.
  assert.match(await text('#present'), /^Event 7, .* ignored duplicate cancels 1$/);
  assert.deepEqual(await rings(), [[1, true, 'hold cancelled']]);
  assert.deepEqual(await rows('tree'), ['station 0 sent it +0 ms',
    'station 1 accepted, cancelled +1 ms', 'station 2 accepted, forwarded, 1 duplicate +1 ms']);
  await page.value('geostation.app.go(5)');
  assert.deepEqual(await rings(), [[1, false, 'hold held'], [2, false, 'hold held']]);
  assert.equal(await text('#packet .frame + .frame h3'), 'Forwarded frame');
  assert.match(await text('#packet .frame + .frame .fate'),
    /^Frame 2, held by station 2 at 1001 ms and sent at 1062 ms: 0 accepted it, 2 ignored it/);
  await page.value('geostation.app.go(4)');
  assert.equal(await text('#packet .frame + .frame h3'), 'Held frame');
  assert.match(await text('#packet .frame + .frame .fate'),
    /^Frame 1, held by station 1 at 1001 ms and cancelled at 1063 ms: 0 accepted it/);
  await page.press('ArrowRight');
  await page.press('ArrowRight');
  assert.equal(await text('#present'),
    'Note, 1062 ms, station 2: released 2, sends the frame that it held');
  assert.deepEqual(await rings(), [[1, false, 'hold held']]);
  await page.press('End');
  const saved = await page.value('geostation.saving.textOf(geostation.app.map, "")');
  const ringed = saved.match(/<path[^>]* d="M0 -[^"]*zM[^"]*"[^>]*>/g);
  assert.equal(ringed.length, 2);
  assert.ok(ringed.every((ring) => /fill="none" stroke="rgb\(138, 97, 0\)"/.test(
    ring.replace(/ (d|transform|fill-opacity)="[^"]*"/g, '').replace(/\s+/g, ' '))), ringed[0]);
  assert.match(saved, />cancelled</);
  noFault();
});

test('more than a thousand stations: rings are painted', async () => {
  const file = path.join(room, 'many.jsonl');
  const far = Array.from({length: 1000}, (_, i) => JSON.stringify({
    address: `1400020100${i.toString(16).padStart(6, '0')}`, lat: 60000, lon: 100 * i}));
  fs.writeFileSync(file, contending.textOf(contending.CANCELLED)
    .replace('],"air"', `,${far.join(',')}],"air"`));
  await show(file);
  assert.equal(await count('.station'), 0);
  /** How many points have the colour of the rings. */
  const painted = () => page.value(`(() => {
    const canvas = document.getElementById('canvas');
    const {data} = canvas.getContext('2d').getImageData(0, 0, canvas.width, canvas.height);
    let count = 0;
    for (let i = 0; i < data.length; i += 4) {
      if (data[i] === 138 && data[i + 1] === 97 && data[i + 2] === 0) count += 1;
    }
    return count;
  })()`);
  assert.ok(await painted() > 10);
  await page.press('Home');
  assert.equal(await painted(), 0);
  noFault();
});

test('all frames in place of a warning, and another run while one plays', async () => {
  await page.value('document.getElementById("sample").click()');
  await page.until('document.body.dataset.state === "run"');
  await page.value('document.getElementById("sends").scrollTop = 0');
  await page.click('#sends [data-index="0"]');
  assert.equal(await page.value('document.getElementById("missed-box").hidden'), true);
  await page.value('geostation.app.go(77)');
  await page.until('document.querySelectorAll("g.link").length > 0');
  await page.click('#events .row:nth-child(2)');
  await page.press(' ');
  assert.equal(await page.value('geostation.app.timeline.playing'), true);
  await show(FOUR);
  assert.equal(await page.value('geostation.app.timeline.playing'), false);
  assert.match(await text('#present'), /^Event 7,/);
  noFault();
});

test('the address names the event, and leads there', async () => {
  await page.go(`${URL_OF_PAGE}?leads#event=3`);
  await show(FOUR);
  assert.match(await text('#present'), /^Event 3,/);
  await page.press('ArrowRight');
  await page.until('location.hash === "#event=4"');
  await page.value('void (location.hash = "#event=6")');
  await page.until('geostation.app.state.at === 6');
  noFault();
});

test('filters list a kind and a result, and arrows go along them', async () => {
  await page.choose(samples.LOSS);
  await page.until('document.body.dataset.state === "run"');
  await pick('kind', 'gbc');
  await pick('result', 'delivered');
  assert.deepEqual((await rows('events')).map((row) => row.split(' ').slice(0, 2).join(' ')),
    ['2009 9', '4009 9', '4010 10', '4011 11']);
  await page.press('End');
  await page.press('ArrowLeft');
  assert.match(await text('#present'), /^Event 94,/);
  await page.click('#all');
  assert.equal(await page.value('geostation.app.state.rows'), undefined);
  noFault();
});

test('a delivery shows the frame that came and the one that was given', async () => {
  await show(FOUR);
  await page.click('#events [data-index="4"]');
  const titles = () => page.value(`[...document.querySelectorAll('#packet .fate')]
    .map((words) => words.textContent.split(',')[0])`);
  assert.deepEqual(await titles(), ['Frame 1', 'Frame 2']);
  const changed = await page.value(`[...document.querySelectorAll('#packet .changed')]
    .map((value) => value.textContent)`);
  assert.deepEqual(changed, ['8 of 10', '020000000003, all']);
  await page.value('geostation.app.go(5)');
  assert.deepEqual(await titles(), ['Frame 2']);
  noFault();
});

test('marks of warnings lead to them; the load stands under the slider', async () => {
  await page.choose(samples.LOSS);
  await page.until('document.getElementById("load").textContent.startsWith("All")');
  assert.equal(await count('.mark'), 3);
  assert.equal(await page.value('geostation.app.state.send'), 0);
  await page.click('.mark:nth-child(2)');
  assert.match(await text('#present'), /^Event 55, 3000 ms,/);
  // The warning of the mark is selected: its row, its figures and its path.
  assert.equal(await page.value('geostation.app.state.send'), 1);
  assert.equal(await page.value('geostation.app.state.chosen.event'), 55);
  assert.match(await text('#sends .row[aria-selected="true"]'), /^3000/);
  assert.match(await text('.row.step.sent'), /^station \d+sent it/);
  const axis = await page.value('geostation.app.strip.ticks');
  assert.ok(axis.length >= 3 && axis.every(({text}) => / s$/.test(text)), JSON.stringify(axis));
  assert.equal(await text('#load'), 'All · 10 frames/s · channel busy 0.00 % (median), ' +
    '0.18 % (most) · 1.5 duplicates per delivery · largest location table 3');
  await page.click('.station[data-station="0"]');
  assert.match(await text('#load'), /^Station 0 · 10 frames\/s · channel busy 0\.18 % · /);
  noFault();
});

test('stations have one name everywhere, and names lie apart', async () => {
  const lines = samples.four().trimEnd().split('\n');
  const made = ['v7', '3'].map((id, i) =>
    ({station: 4 + i, id, address: `140002010000000${1 + i}`, lat: 36000, lon: 6000 * (i + 1)}));
  const moves = made.map(({station, lat, lon}, i) =>
    ({event: 8 + i, moment: 2000, station, do: 'move', lat, lon, result: 'moved'}));
  const notes = made.map(({station}) => ({note: 'came', moment: 2000, station}));
  const more = made.flatMap((_, i) => [made[i], moves[i], notes[i]]);
  const file = path.join(room, 'ids.jsonl');
  fs.writeFileSync(file, [...lines, ...more.map((line) => JSON.stringify(line))].join('\n'));
  await show(file);
  const named = () => page.value(`[...document.querySelectorAll('.labels text')]
    .filter(({style}) => style.display !== 'none').map(({textContent}) => textContent).sort()`);
  // Neither vehicle has come: the number 3 belongs to a vehicle, so station 3 has a sign.
  assert.deepEqual(await named(), ['#3', '0', '1', '2']);
  assert.equal(await count('.station'), 4);
  await page.press('End');
  assert.match(await text('#present'), /station 3: came/);
  assert.equal(await count('.station'), 6);
  assert.ok((await named()).includes('v7'));
  const overlaps = await page.value(`(() => {
    const boxes = [...document.querySelectorAll('.labels text')]
      .filter(({style}) => style.display !== 'none').map((text) => text.getBoundingClientRect());
    return boxes.flatMap((a, i) => boxes.slice(i + 1).filter((b) => a.left < b.right - 1 &&
      b.left < a.right - 1 && a.top < b.bottom - 4 && b.top < a.bottom - 4)).length;
  })()`);
  assert.equal(overlaps, 0);
  // The name in the field is that of the map, and typing it chooses the station.
  await page.click('.station[data-station="4"]');
  assert.equal(await page.value('document.getElementById("station").value'), 'v7');
  assert.match(await text('.station[data-station="4"] title'), /^station v7, 1400/);
  const type = (name) => page.value(`(() => {
    const field = document.getElementById('station');
    field.value = ${JSON.stringify(name)};
    field.dispatchEvent(new Event('input'));
    return geostation.app.state.station;
  })()`);
  assert.deepEqual([await type('3'), await type('#3'), await type('4'), await type('v')],
    [5, 3, undefined, undefined]);
  noFault();
});

test('a box for each kind of arc hides and shows it', async () => {
  await show(FOUR);
  await page.press('End');
  const arcs = () => page.value(`Object.fromEntries(['accepted', 'duplicate', 'other'].map((kind) =>
    [kind, geostation.app.map.scene.links.filter((link) => link.kind === kind).length]))`);
  assert.deepEqual(await arcs(), {accepted: 3, duplicate: 2, other: 1});
  await page.click('[data-arc="ignored"]');
  assert.deepEqual(await arcs(), {accepted: 3, duplicate: 0, other: 0});
  assert.equal(await text('#unseen'), '');
  await page.click('[data-arc="accepted"]');
  assert.equal(await count('g.link'), 0);
  await page.click('[data-arc="ignored"]');
  assert.deepEqual(await arcs(), {accepted: 0, duplicate: 2, other: 1});
  await page.click('#sends [data-index="0"]');
  assert.deepEqual(await arcs(), {accepted: 0, duplicate: 2, other: 1});
  await page.click('[data-arc="accepted"]');
  const saved = await page.value('geostation.saving.textOf(geostation.app.map, "")');
  assert.match(saved, />first copy</);
  await page.click('[data-arc="accepted"]');
  assert.doesNotMatch(await page.value('geostation.saving.textOf(geostation.app.map, "")'),
    />first copy</);
  noFault();
});

test('the saved map waits for a street net that is still being read', async () => {
  await show(FOUR);
  const saved = await page.value(`new Promise((done) => {
    HTMLAnchorElement.prototype.click = async function () {
      done(await (await fetch(this.href)).text());
    };
    geostation.app.open(new File(['{"type":"LineString","coordinates":[[0,0],[0,0.001]]}'],
      'a.geojson'), 'a.geojson');
    document.getElementById('save').click();
  })`);
  assert.match(saved, /stroke="#d5dde6"/);
  noFault();
});

test('a file of --load is shown with the run it goes with', async () => {
  const file = path.join(room, 'load.csv');
  fs.writeFileSync(file, 'second,stations,frames,octets,busy_p50,busy_p95,busy_most\n' +
    '2,12,10,770,3,7,9\n');
  await page.choose(file);
  await page.until('!document.getElementById("fault").hidden');
  assert.match(await text('#fault'), /goes with a run/);
  await show(samples.LOSS);
  await page.choose(file);
  await page.until('document.getElementById("load").title.includes("load.csv")');
  assert.match(await text('#load'), /^All · 10 frames\/s · channel busy 0\.30 % \(median\), 0\.90 % /);
  noFault();
});

/** Writes a report and chooses it. @param {string} name @param {string} text of it */
async function chooseReport(name, content) {
  const file = path.join(room, name);
  fs.writeFileSync(file, content);
  await page.choose(file);
}

/** Opens a run and a report on it. @param {string} run its file @param {any[]} of `reports.textOf` */
async function showReport(run, ...words) {
  await show(run);
  await chooseReport('verdicts.jsonl', reports.textOf(...words));
  await page.until('!!geostation.app.state.verdicts');
}

/** The signs of verdicts on the map: the frame of each, and its classes. */
function signs() {
  return page.value(`[...document.querySelectorAll('g.badge[data-frame]')]
    .filter(({style}) => style.display !== 'none')
    .map((sign) => [Number(sign.dataset.frame), sign.getAttribute('class')])`);
}

test('verdicts: the station under test, signs, counts, the list and the packet', async () => {
  await showReport(FOUR, reports.FOUR);
  assert.match(await text('#totals'), / · verdicts: 1 pass, 1 fail, 1 inconclusive$/);
  assert.equal(await text('#under-test'), 'Station 1 under test');
  const at = (selector) => page.value(
    `document.querySelector(${JSON.stringify(selector)}).getAttribute('transform')`);
  assert.equal(await count('.tested[transform]'), 1);
  assert.equal(await at('.tested[transform]'), await at('.station[data-station="1"]'));
  assert.deepEqual(await signs(), [[1, 'badge fail']]);
  const fail = '✗ fail D13: octet 60 of the packet is changed (#0) (EN 302 636-4-1 10.3.11.3)';
  await page.click('g.badge[data-frame="1"]');
  assert.equal(await page.value(`document.querySelector('#packet ul').getAttribute('aria-label')`),
    'Verdicts on station 1, record 1 of its capture');
  assert.deepEqual(await page.value(`[...document.querySelectorAll('#packet li')]
    .map((item) => [item.className, item.textContent])`), [['verdict fail', fail],
    ['verdict inconclusive', '? inconclusive D15: the first time (needs fresh, sent)'],
    ['verdict pass', '✓ pass D14: a gbc']]);
  // Frames without a verdict have neither.
  await page.press('Home');
  await page.press('ArrowRight');
  assert.deepEqual(await signs(), []);
  assert.equal(await count('#packet li'), 0);
  await page.press('ArrowRight');
  assert.equal(await text('#present'),
    `Event 2, 1001 ms, station 1: deliver 0, accepted sent 1. Verdicts: ${fail}`);
  assert.ok((await rows('events')).includes(`1001 1 deliver 0 accepted sent 1 ${fail}`));
  noFault();
});

test('a verdict has a sign and a word as well as a colour, in the legend too', async () => {
  await show(FOUR);
  const entries = () => page.value(`[...document.querySelectorAll('.legend [data-tested]')]
    .map((entry) => entry.hidden ? '' : entry.textContent.trim())`);
  assert.deepEqual(await entries(), ['', '', '', '']);
  assert.equal(await page.value('document.getElementById("verdicts").hidden'), true);
  await showReport(FOUR, reports.FOUR);
  assert.deepEqual(await entries(), ['under test', 'pass', 'fail', 'inconclusive']);
  const keys = await page.value(`['pass', 'fail', 'inconclusive'].map((result) => {
    const key = document.querySelector('.key .badge.' + result);
    return [getComputedStyle(key.firstElementChild).fill, key.children[1].getAttribute('d')];
  })`);
  const [pass, fail, open] = keys.map(([fill]) => hue(fill));
  assert.ok(pass > 120 && pass < 160 && fail < 10 && open > 30 && open < 60, `${keys}`);
  assert.equal(new Set(keys.map(([, d]) => d)).size, 3);
  const sign = `document.querySelector('g.badge[data-frame="1"]')`;
  assert.equal(await page.value(`${sign}.children[1].getAttribute('d')`), keys[1][1]);
  assert.equal(await page.value(`${sign}.querySelector('title').textContent`), 'frame 1: fail');
  // The saved map has the sign, the corners and their entries of the legend.
  const saved = await page.value(`geostation.saving.textOf(geostation.app.map, '')`);
  assert.equal(saved.split(keys[1][1]).length, 3);
  assert.match(saved, />under test<.*>inconclusive</);
  noFault();
});

test('only fails: a box by the keyboard, and arrows from fail to fail', async () => {
  await showReport(FOUR, [...reports.FOUR, reports.RECEIVED]);
  const listed = 'document.querySelector("#events .row").getAttribute("aria-setsize")';
  await page.value('document.getElementById("only-fails").focus()');
  await page.press(' ', 0, {code: 'Space', windowsVirtualKeyCode: 32});
  assert.equal(await page.value('document.getElementById("only-fails").checked'), true);
  const moments = async () => (await rows('events')).map((row) => row.split(' ✗ fail ')[0]);
  assert.deepEqual(await moments(), ['1001 1 deliver 0 accepted sent 1',
    '1002 2 deliver 1 accepted sent 2', '1003 1 deliver 2 ignored duplicate']);
  await page.value('document.activeElement.blur()');
  await page.press('Home');
  assert.match(await text('#present'), /^Event 2, .* ✗ fail D13: /);
  await page.press('ArrowRight');
  assert.match(await text('#present'), /^Event 4, .* ✗ fail D20: owed, but not forwarded /);
  assert.deepEqual(await signs(), [[1, 'badge fail'], [2, 'badge fail']]);
  await page.press('ArrowRight');
  assert.match(await text('#present'), /^Event 5, /);
  await pick('result', 'duplicate');
  assert.equal((await rows('events')).length, 1);
  await page.click('#all');
  assert.equal(await page.value('document.getElementById("only-fails").checked'), false);
  assert.equal(await page.value(listed), '8');
  noFault();
});

test('a report with fails only says how many verdicts it leaves out', async () => {
  await showReport(FOUR, reports.FOUR.slice(0, 1), reports.ADDRESSES[1], reports.FOUR);
  assert.match(await text('#totals'), / · verdicts: 1 pass, 1 fail, 1 inconclusive$/);
  assert.equal(await text('#under-test'),
    'Station 1 under test: 1 of 3 verdicts. “verdict --all” prints all');
  // Another run has no verdicts.
  await show(ROAD);
  assert.equal(await count('.mark.fail'), 0);
  assert.doesNotMatch(await text('#totals'), /verdicts/);
  assert.equal(await page.value('document.getElementById("verdicts").hidden'), true);
  assert.equal(await count('.tested[transform]'), 0);
  assert.deepEqual(await signs(), []);
  noFault();
});

test('a report without its run, or on another, gets a sentence and changes nothing', async () => {
  const fault = async (name, content) => {
    await chooseReport(name, content);
    await page.until(`document.getElementById('fault').textContent.startsWith('${name}: ')`);
    assert.equal(await page.value('document.getElementById("fault").hidden'), false);
    return text('#fault');
  };
  assert.equal(await fault('first.jsonl', reports.textOf(reports.FOUR)),
    'first.jsonl: Verdicts go with a run. Open the run first.');
  await showReport(FOUR, reports.FOUR);
  const totals = await text('#totals');
  assert.match(await fault('station.jsonl', reports.textOf(reports.FOUR, '1400020000000009')),
    /: The verdicts aren’t on this run: they are on station 1400020000000009, which /);
  const late = reports.FOUR.map((verdict) => ({...verdict, moment: 1700000000000}));
  assert.match(await fault('late.jsonl', reports.textOf(late)),
    /record 1 is at 1700000000000 ms, that frame at 1001 ms/);
  assert.match(await fault('cut.jsonl', reports.textOf(reports.FOUR).slice(0, -40)), /it’s cut\.$/);
  assert.equal(await text('#totals'), totals);
  assert.deepEqual(await signs(), [[1, 'badge fail']]);
  noFault();
});

test('a frame that was held has its verdict at its release', async () => {
  const file = path.join(room, 'held.jsonl');
  fs.writeFileSync(file, contending.textOf(contending.AWAY));
  await showReport(file, [{result: 'pass', duty: 'D14', moment: 1072, record: 2, reason: 'a gbc'}]);
  assert.equal(await count('.mark.fail'), 0);
  await page.press('End');
  assert.deepEqual(await signs(), [[1, 'badge pass']]);
  await page.press('ArrowLeft');
  assert.match(await text('#present'), /^Note, 1072 ms, .* Verdicts: ✓ pass D14$/);
  assert.ok((await rows('events'))
    .includes('1072 1 released 1 sends the frame that it held ✓ pass D14'));
  assert.deepEqual(await signs(), [[1, 'badge pass']]);
  await page.press('Home');
  for (let i = 0; i < 4; i += 1) await page.press('ArrowRight');
  assert.match(await text('#present'), /^Event 4, 1001 ms, station 1: .* waits 1 until 1072$/);
  assert.deepEqual(await signs(), []);
  // A fail of a held frame has its cross at the release.
  await chooseReport('fail.jsonl', reports.textOf([{result: 'fail', duty: 'D16', moment: 1072,
    record: 2, cause: 0, reason: 'late: 72 ms after #0'}]));
  await page.until('!!document.querySelector(".mark.fail")');
  await page.click('.mark.fail');
  assert.match(await text('#present'), /^Note, 1072 ms, station 1: .* ✗ fail D16: late: 72 ms /);
  noFault();
});

test('more than a thousand stations: the signs of verdicts are painted, and clicked', async () => {
  const lines = samples.four().split('\n');
  const first = JSON.parse(lines[0]);
  for (let i = 4; i < 1100; i += 1) {
    first.stations.push({address: `14000200${String(i).padStart(8, '0')}`, lat: 1000 * (i % 40),
      lon: -40000 - 1000 * i});
  }
  const file = path.join(room, 'many.jsonl');
  fs.writeFileSync(file, [JSON.stringify(first), ...lines.slice(1)].join('\n'));
  await showReport(file, reports.FOUR);
  await page.press('End');
  assert.equal(await page.value('geostation.app.map.painter === geostation.app.map.painted'), true);
  const [{x, y, frame, result}] = await page.value('geostation.app.map.painted.signs');
  assert.deepEqual([frame, result], [1, 'fail']);
  const colour = await page.value(`(() => {
    const dense = window.devicePixelRatio;
    const {data} = geostation.app.map.painted.context.getImageData(${x} * dense - 6, ${y} * dense, 1, 1);
    return 'rgb(' + data.slice(0, 3).join() + ')';
  })()`);
  assert.ok(hue(colour) < 10, colour);
  const [left, top] = await page.value(`(() => {
    const box = document.getElementById('map').getBoundingClientRect();
    return [box.x, box.y];
  })()`);
  await page.clickAt(left + x, top + y);
  assert.equal(await count('#packet li'), 3);
  noFault();
});

test('a capture and verdicts on it are dropped together', async () => {
  const capture = fs.readFileSync(path.join(TOP, '..', 'cases', 'data', 'verdict', 'iut.cap'));
  const own = {moment: 8000, record: 9};
  const report = reports.textOf([
    {result: 'pass', duty: 'D4', ...own, reason: 'hops 10 of 10'},
    {result: 'inconclusive', duty: 'D3', ...own, needs: ['mobile'], reason: 'mobile is not given'},
    {result: 'fail', duty: 'D14', moment: 9500, record: 11, rule: 'EN 302 636-4-1 10.3',
      reason: 'a beacon of 1400020000000201 was forwarded'}], '1400020000000100');
  await page.value(`(() => {
    const data = new DataTransfer();
    data.items.add(new File([${JSON.stringify(report)}], 'verdicts.jsonl'));
    data.items.add(new File([new Uint8Array([${capture.join()}])], 'iut.cap'));
    document.dispatchEvent(new DragEvent('drop', {dataTransfer: data, bubbles: true}));
  })()`);
  await page.until('!!geostation.app?.state.verdicts');
  assert.equal(await text('#totals'),
    '2 stations · 24 records · verdicts: 1 pass, 1 fail, 1 inconclusive');
  assert.equal(await text('#under-test'), 'Station 020000000100 under test');
  // The run begins before the station has sent a packet of its own.
  assert.equal(await text('#present'), 'Record 0, 0 ms, station 020000000200: beacon');
  assert.equal(await text('#unseen'), 'Not drawn: 1 station of unknown position.');
  assert.deepEqual(await signs(), []);
  for (let i = 0; i < 9; i += 1) await page.press('ArrowRight');
  assert.equal(await text('#present'), 'Record 9, 8000 ms, station 020000000100: gbc. ' +
    'Verdicts: ? inconclusive D3: mobile is not given (needs mobile)');
  assert.deepEqual(await signs(), [[9, 'badge inconclusive']]);
  assert.equal(await count('.tested[transform]'), 1);
  assert.equal(await count('path.area'), 1);
  assert.equal(await text('#packet .fate'), 'Record 9, sent by station 020000000100 at 8000 ms.');
  // What needs receptions is not shown.
  assert.deepEqual(await rows('sends'), ['All frames, in order']);
  assert.equal(await text('#load'), '');
  assert.deepEqual(await page.value(`[...document.querySelectorAll('.legend li')]
    .filter(({hidden}) => !hidden).map((entry) => entry.textContent.trim())`),
  ['under test', 'pass', 'fail', 'inconclusive']);
  // A cross above the slider leads to each fail.
  assert.deepEqual(await page.value(`[...document.querySelectorAll('.mark')].map((mark) =>
    [mark.className, mark.textContent, mark.title])`), [['mark fail', '✗', 'At 9500 ms: ✗ fail D14: ' +
    'a beacon of 1400020000000201 was forwarded (EN 302 636-4-1 10.3)']]);
  await page.click('.mark.fail');
  assert.match(await text('#present'), /^Record 11, 9500 ms, /);
  await page.click('#only-fails');
  assert.deepEqual(await rows('events'), ['9500 020000000100 beacon record 11 ✗ fail D14: a beacon of ' +
    '1400020000000201 was forwarded (EN 302 636-4-1 10.3)']);
  noFault();
});

test('a capture that is cut shows the records before, and says so', async () => {
  const capture = fs.readFileSync(path.join(TOP, '..', 'cases', 'data', 'gbc.cap'));
  const file = path.join(room, 'cut.cap');
  fs.writeFileSync(file, capture.subarray(0, capture.length - 1));
  await show(file);
  assert.equal(await text('#totals'), '1 station · 1 record');
  const legend = 'getComputedStyle(document.querySelector(".legend")).display';
  assert.equal(await page.value(legend), 'none');
  assert.equal(await text('#fault'), 'cut.cap: The capture is cut in record 1. The page shows the ' +
    'records before it.');
  assert.equal(await page.value('document.getElementById("fault").hidden'), false);
  // A run after it has its load and its legend again.
  await show(FOUR);
  assert.equal(await page.value(legend), 'block');
  await page.until('document.getElementById("load").textContent.startsWith("All")');
  assert.equal(await page.value('document.getElementById("fault").hidden'), true);
  noFault();
});

test('handles resize the panels, by drag and by key', async () => {
  await show(FOUR);
  const wide = () => page.value('document.querySelector(".side").getBoundingClientRect().width');
  const high = () => page.value('document.querySelector(".sends").getBoundingClientRect().height');
  const [width, height] = [await wide(), await high()];
  const {x, y} = await page.value(`(() => {
    const {x, y, width} = document.querySelector('.handle').getBoundingClientRect();
    return {x: x + width / 2, y: y + 99};
  })()`);
  const mouse = (type, at) => page.call('Input.dispatchMouseEvent',
    {type, x: at, y, button: 'left', buttons: 1, clickCount: 1});
  await mouse('mousePressed', x);
  await mouse('mouseMoved', x - 60);
  await mouse('mouseReleased', x - 60);
  assert.ok(Math.abs(await wide() - width - 60) < 3, `${width} ${await wide()}`);
  await page.value('document.querySelector(".side .handle").focus()');
  await page.press('ArrowUp');
  assert.ok(Math.abs(await high() - height + 24) < 3, `${height} ${await high()}`);
  noFault();
});

test('a name with markup in it is text', async () => {
  const id = '<script>globalThis.hurt = 1</script><img src=x onerror=hurt()>';
  const lines = samples.four().trimEnd().split('\n');
  const made = {station: 4, id, address: '1400020100000001', lat: 108000, lon: 4000};
  const move = {event: 8, moment: 2000, station: 4, do: 'move', lat: 108000, lon: 4000,
    result: 'moved'};
  const note = {note: 'came', moment: 2000, station: 4};
  const more = [made, move, note].map((value) => JSON.stringify(value));
  const file = path.join(room, 'named.jsonl');
  fs.writeFileSync(file, [...lines, ...more].join('\n'));
  await show(file);
  await page.press('End');
  assert.ok((await text('#present')).includes(id));
  const labels = '[...document.querySelectorAll(".place-name")].map((label) => label.textContent)';
  assert.ok((await page.value(labels)).includes(id));
  assert.equal(await page.value('typeof globalThis.hurt'), 'undefined');
  assert.equal(await page.value('document.querySelectorAll("main script, main img").length'), 0);
  noFault();
});

test('10,000 stations and a million events: painted, and what is not is said', async (context) => {
  const file = path.join(room, 'city.jsonl');
  samples.city(file, 1000000);
  const started = Date.now();
  await show(file);
  const opened = Date.now() - started;
  assert.match(await text('#totals'), /^10,000 stations · 1,000,000 events/);
  assert.equal(await count('.station'), 0);
  assert.match(await text('#unseen'), /^Not drawn: .*the names and trails of 10,000 stations\.$/);
  assert.ok(await page.value(`(() => {
    const canvas = document.getElementById('canvas');
    const {data} = canvas.getContext('2d').getImageData(0, 0, canvas.width, canvas.height);
    return data.filter((_, i) => i % 4 === 3 && data[i] > 0).length;
  })()`) > 10000);
  const {x, y, station} = await page.value(`(() => {
    const {map} = geostation.app;
    const box = document.getElementById('map').getBoundingClientRect();
    return {x: box.x + map.painted.xs[5050], y: box.y + map.painted.ys[5050], station: 5050};
  })()`);
  await page.clickAt(x, y);
  assert.equal(await page.value('geostation.app.state.station'), station);
  await page.value('document.getElementById("all").click()');
  await page.until('document.getElementById("load").textContent.startsWith("All")');
  for (let i = 0; i < 9; i += 1) await page.click('#zoom-in');
  assert.match(await text('#unseen'), /the trails of 10,000 stations\.$/);
  await page.click('#zoom-fit');
  const rate = await page.value(`new Promise((done) => {
    const {timeline} = geostation.app;
    let frames = 0;
    timeline.play();
    const started = performance.now();
    const turn = () => {
      frames += 1;
      const gone = performance.now() - started;
      if (gone < 2000) return void requestAnimationFrame(turn);
      timeline.pause();
      done((1000 * frames) / gone);
    };
    requestAnimationFrame(turn);
  })`);
  assert.ok(await page.value('geostation.app.state.at') > 0);
  context.diagnostic(`a million events opened in ${opened} ms and played at ${rate.toFixed()} ` +
    'frames a second');
  noFault();
});

test('a file that is no run gets a sentence, and leaves the last run', async () => {
  const write = (name, content) => {
    fs.writeFileSync(path.join(room, name), content);
    return path.join(room, name);
  };
  const fault = async (file) => {
    await page.choose(file);
    const name = JSON.stringify(path.basename(file));
    await page.until(`document.getElementById('fault').textContent.startsWith(${name})`);
    assert.equal(await page.value('document.getElementById("fault").hidden'), false);
    return text('#fault');
  };
  assert.match(await fault(write('photo.png', Buffer.from('89504e470d0a1a0a', 'hex'))),
    /the first line isn’t a JSON object/);
  assert.match(await fault(write('empty.jsonl', '')), /it’s empty/);
  assert.equal(await page.value('document.body.dataset.state'), 'empty');
  await show(FOUR);
  assert.equal(await page.value('document.getElementById("fault").hidden'), true);
  assert.match(await fault(write('cut.jsonl', samples.four().slice(0, 900))), /Line \d+ .* cut/);
  assert.match(await text('#totals'), /^4 stations/);
  assert.ok(await page.value('document.documentElement.scrollHeight') <= 800);
  noFault();
});

test('a frame is drawn by what became of it', async () => {
  const octets = samples.four().match(/"octets":"(\w+)"/)[1];
  const stations = [0, 1, 2, 3, 4].map((i) =>
    ({address: `140002000000000${i + 1}`, lat: 9000 * i, lon: 5000 * (i % 2)}));
  const to = (station, result) => ({moment: 6, station, do: 'deliver', frame: 0, ...result});
  const events = [
    {moment: 5, station: 0, do: 'gbc', result: 'sent', sent: 0, octets},
    to(1, {result: 'accepted'}), to(2, {result: 'ignored', why: 'duplicate'}),
    to(3, {result: 'refused', code: 'S4', reason: 'the table is full'}),
  ];
  const lost = {note: 'lost', moment: 5, station: 4, frame: 0};
  const [sent, ...others] = events.map((event, i) => ({event: i, ...event}));
  const lines = [{stations}, sent, lost, ...others];
  const file = path.join(room, 'fates.jsonl');
  fs.writeFileSync(file, lines.map((line) => JSON.stringify(line)).join('\n'));
  await show(file);
  await page.press('End');
  const drawn = (kind) => page.value(`(() => {
    const {strokeWidth, strokeDasharray} =
      getComputedStyle(document.querySelector('g.link.${kind} .seen'));
    return [parseFloat(strokeWidth), strokeDasharray !== 'none'];
  })()`);
  const [thick, isDashed] = await drawn('accepted');
  const [thin, isThinDashed] = await drawn('duplicate');
  assert.deepEqual([isDashed, isThinDashed, (await drawn('refused'))[1]], [false, false, true]);
  assert.deepEqual((await drawn('lost'))[1], true);
  assert.ok(thin < thick);
  assert.equal(await text('#present'),
    'Event 3, 6 ms, station 3: deliver 0, refused S4 (the table is full)');
  noFault();
});

test('a packet outside the profile is drawn, listed and shown', async () => {
  const file = fs.readFileSync(path.join(TOP, '..', 'cases', 'data', 'outside.pcap'));
  const octets = file.subarray(40, 40 + file.readUInt32LE(32)).toString('hex');
  const stations = [1, 2].map((n, i) => ({address: `140002000000000${n}`, lat: 9000 * i, lon: 0}));
  const lines = [
    {stations},
    {event: 0, moment: 5, station: 0, do: 'gbc', result: 'sent', sent: 0, octets},
    {event: 1, moment: 6, station: 1, do: 'deliver', frame: 0, result: 'refused',
      code: 'S3 L5 G7 at 5', reason: 'an unsupported header type'},
  ];
  const run = path.join(room, 'outside.jsonl');
  fs.writeFileSync(run, lines.map((line) => JSON.stringify(line)).join('\n'));
  await show(run);
  await page.press('End');
  assert.equal(await count('g.link.refused'), 1);
  const shown = await text('#packet .fields');
  for (const words of ['GUC: a message to one station', 'L5 G7 at 5', '3c00020000000010', '2002, 0']) {
    assert.ok(shown.includes(words), words);
  }
  await pick('kind', 'guc');
  assert.deepEqual((await rows('events')).length, 1);
  noFault();
});

test('a station without events stops playing by events at once', async () => {
  const file = path.join(room, 'idle.jsonl');
  fs.writeFileSync(file, samples.four().replace('"stations":[',
    '"stations":[{"address":"1400020000000009","lat":0,"lon":9000},')
    .replace(/"station":(\d)/g, (_, i) => `"station":${Number(i) + 1}`));
  await show(file);
  await page.value('document.getElementById("speed").value = "8"');
  await page.press('Home');
  await page.click('.station[data-station="0"]');
  assert.deepEqual(await rows('events'), []);
  await page.press('ArrowRight');
  await page.press(' ');
  await page.until('!!document.querySelector("#play[aria-label=Play]")');
  assert.match(await text('#present'), /^Event 0,/);
  noFault();
});

test('runs without stations and without events', async () => {
  const file = path.join(room, 'none.jsonl');
  fs.writeFileSync(file, '{"stations":[]}\n');
  await show(file);
  assert.equal(await text('#present'), 'This run has no events.');
  await page.press('ArrowRight');
  await page.press(' ');
  noFault();
});

test('a dropped file opens', async () => {
  await page.value(`(() => {
    const data = new DataTransfer();
    data.items.add(new File([geostation.sample], 'dropped.jsonl'));
    document.dispatchEvent(new DragEvent('drop', {dataTransfer: data, cancelable: true}));
  })()`);
  await page.until('document.getElementById("name").textContent === "dropped.jsonl"');
  noFault();
});

test('a run and its street net are dropped together, in any order', async () => {
  await page.value(`(() => {
    const data = new DataTransfer();
    data.items.add(new File(['{"type":"LineString","coordinates":[[0,0],[0,0.001]]}'], 'a.geojson'));
    data.items.add(new File([geostation.sample], 'dropped.jsonl'));
    document.dispatchEvent(new DragEvent('drop', {dataTransfer: data, cancelable: true}));
  })()`);
  await page.until('geostation.app.map.ground.streets.length === 1');
  assert.equal(await text('#name'), 'dropped.jsonl');
  assert.equal(await page.value('document.getElementById("fault").hidden'), true);
  noFault();
});

/** Serves the page and the samples. */
function serve() {
  const server = http.createServer((request, answer) => {
    const file = path.join(TOP, new URL(request.url, 'http://x').pathname);
    const type = {'.html': 'text/html', '.css': 'text/css', '.js': 'text/javascript'};
    if (!fs.existsSync(file)) return answer.writeHead(404).end();
    answer.writeHead(200, {'content-type': type[path.extname(file)] ?? 'text/plain'});
    return answer.end(fs.readFileSync(file));
  });
  return new Promise((resolve) => {
    server.listen(0, '127.0.0.1', () => resolve(server));
  });
}

test('?run= opens a file beside the page where it is served, and no other', async () => {
  const server = await serve();
  const top = `http://127.0.0.1:${server.address().port}/index.html`;
  await page.go(`${top}?run=test/data/four.jsonl`);
  await page.until('document.body.dataset.state === "run"');
  assert.match(await text('#totals'), /^4 stations · 8 events/);
  await page.go(`${top}?run=none.jsonl`);
  await page.until('!document.getElementById("fault").hidden');
  assert.match(await text('#fault'), /The server answered 404/);
  await page.go(`${top}?run=http://127.0.0.2/x`);
  await page.until('!document.getElementById("fault").hidden');
  assert.match(await text('#fault'), /only files from the server of this page/);
  server.closeAllConnections();
  server.close();
  await page.go(`${URL_OF_PAGE}?run=test/data/four.jsonl`);
  await page.until('!document.getElementById("fault").hidden');
  assert.match(await text('#fault'), /only files from the server of this page/);
});

test('1000 stations and 200,000 events open and step without stalling', async (context) => {
  const file = path.join(room, 'town.jsonl');
  fs.writeFileSync(file, samples.town());
  const started = Date.now();
  await show(file);
  const opened = Date.now() - started;
  assert.match(await text('#totals'), /^1,000 stations · 200,000 events/);
  const times = await page.value(`(() => {
    const times = [];
    for (let i = 0; i < 60; i += 1) {
      const started = performance.now();
      geostation.app.go((i * 3331) % 200000);
      document.body.getBoundingClientRect();
      times.push(performance.now() - started);
    }
    return times.sort((a, b) => a - b);
  })()`);
  assert.ok(await page.value('document.querySelectorAll("*").length') < 8000);
  await page.press('End');
  const last = (await rows('events')).at(-1);
  const lowest = 'document.querySelector("#events .row:last-child").dataset.index';
  assert.equal(await page.value(lowest), '199999');
  assert.match(last, /^\d+ \d+ /);
  await page.press('ArrowLeft', SHIFT);
  assert.match(await text('#present'), /^Event 199989,/);
  const step = times[30].toFixed();
  context.diagnostic(`200,000 events opened in ${opened} ms, a step took ${step} ms`);
  noFault();
});

const SIZES = [['a phone', 390, 844], ['a tablet', 820, 1180], ['a desk', 1280, 800]];
for (const [name, width, height] of SIZES) {
  test(`nothing is wider than ${name}`, async () => {
    await page.look(width, height, true);
    await show(ROAD);
    await page.press('End');
    const widest = await page.value('document.documentElement.scrollWidth');
    assert.ok(widest <= width, `${widest}`);
    assert.ok(await page.value('document.getElementById("map").clientHeight') > 200);
    noFault();
  });
}

test('the page asks for nothing but its own files', () => {
  const own = /^(file:|data:|blob:|http:\/\/127\.0\.0\.1:)/;
  assert.deepEqual(page.requests.filter((url) => !own.test(url)), []);
});
