//! The page's reading against the program itself, where it is built and knows `sim --json`: the
//! events of each sample scenario against what `sim` prints, the ways and who wasn't reached
//! against `sim --summary --explain`, and the frames of verdicts against the capture of the run.
//! GEOSTATION may name the program.

'use strict';

const assert = require('node:assert/strict');
const {spawnSync} = require('node:child_process');
const fs = require('node:fs');
const os = require('node:os');
const path = require('node:path');
const test = require('node:test');
const {load, read, TOP} = require('./load.js');
const samples = require('./samples.js');

const {capture, report, verdicts: judged, way, why, words} = load();
const CRATES = path.join(TOP, '..', 'crates');
const PROGRAM = process.env.GEOSTATION ?? path.join(CRATES, 'geostation', 'out', 'geostation');
const CASES = path.join(CRATES, '..', 'cases');

/** What `sim` prints of a scenario. @param {string} text @param {...string} options */
function print(text, ...options) {
  const args = ['sim', ...options, '-'];
  const {status, stdout, stderr} = spawnSync(PROGRAM, args, {encoding: 'utf8', input: text});
  assert.ok(status === 0 || status === 1, `${args.join(' ')}: status ${status}: ${stderr}`);
  return stdout;
}

/** Why the program can't be asked; false where it can. */
function missing() {
  if (!fs.existsSync(PROGRAM)) return 'the program isn’t built';
  return print('', '--json') === '{"stations":[]}\n' ? false : 'the program has no sim --json';
}

/** The line of the summary, without `inside`, which the run doesn't tell. */
function sendLine(run, send) {
  const {moment, station, do: what, port, delivered, frames, hops, last} = way.figures(run, send);
  return `send ${send.event} ${moment} ${station} ${what} port ${port} delivered ${delivered} ` +
    `frames ${frames} hops ${hops} last ${last}`;
}

/** The line of the totals. With `[air]` it ends with the receptions that a full table rejected. */
function totalLine(run) {
  const full = run.events.map(({index}) => run.events.isFull(index)).filter(Boolean).length;
  const more = run.air && full > 0 ? ['full', full] : [];
  return ['total', ...Object.entries(way.total(run)).flat(), ...more].join(' ');
}

/** The summary's lines of the sends, with who wasn't reached. @param {string} text */
function sendsOf(text) {
  const lines = print(text, '--summary', '--explain', '--json').trimEnd().split('\n');
  return lines.map((line) => JSON.parse(line)).filter(({send}) => send !== undefined);
}

/** The files of a folder with this ending, by name. @param {string} folder @param {string} end */
function filesOf(folder, end) {
  const names = fs.readdirSync(folder).filter((name) => name.endsWith(end));
  return names.map((name) => ({name, text: fs.readFileSync(path.join(folder, name), 'utf8')}));
}

/** The TOML of a block of the language `scenario`. @param {string} lines */
function expanded(lines) {
  const program = path.join(CASES, '../checks/lib/scenario_blocks.py');
  return spawnSync('python3', [program], {input: lines, encoding: 'utf8'}).stdout;
}

/** The scenarios in the cases of the program that send for an area, and need no file of moves. */
const INSIDE = filesOf(CASES, '.md').flatMap(({name, text}) =>
  [...text.matchAll(/^```(toml|scenario) (\S+)\n([^]*?)^```/gm)].map(([, kind, block, lines]) =>
    ({name: `${block} of ${name}`, text: kind === 'toml' ? lines : expanded(lines)})))
  .filter(({text}) => /"g[ab]c"/.test(text) && /address = /.test(text) && !/\bid = /.test(text));
const SAMPLES = [...filesOf(path.join(CASES, 'data'), '.toml'), ...filesOf(samples.DATA, '.toml')];

const skip = missing();
for (const {name, text} of [...SAMPLES, ...INSIDE]) {
  const hasAir = /^\s*(\[air\]|air = )/m.test(text);
  test(`${name} is read as the program runs it`, {skip}, async () => {
    const run = await read(print(text, '--json'));
    const lines = run.events.map((event) => [event.index, run.moment(event.index), event.station,
      ...(hasAir ? [words.doing(event)] : []), words.entry(event)].join(' ') + '\n');
    assert.equal(lines.join(''), print(text));
    const summary = [...way.follow(run).sends.map((send) => sendLine(run, send)), totalLine(run)];
    // Doubts of a run are those of the program alone.
    const printed = print(text, '--summary').replace(/ inside \d+| doubts \d+$/gm, '');
    assert.equal(summary.join('\n') + '\n', printed);
  });

  // Without notes nothing tells who came and left.
  const hasComers = /"leave"/.test(text);
  for (const notes of hasAir ? [['--notes'], ...(hasComers ? [] : [[]])] : [[]]) {
    test(`${name} ${notes}: who was in the areas, who wasn’t reached and why`, {skip}, async () => {
      const told = sendsOf(text);
      const run = await read(print(text, '--json', ...notes));
      const judged = way.follow(run).sends.map((send) => why.judge(run, send));
      assert.deepEqual(judged.map((found) => found.inside.length), told.map(({inside}) => inside));
      assert.deepEqual(judged.map((found) => found.missed.map(({station, reason}) =>
        [station, reason])), told.map(({missed}) => missed));
    });
  }
}

/**
 * The verdicts on a station in a capture, all of them and without claims.
 * @param {string} folder @param {string} capture @param {string} address
 */
function judge(folder, capture, address) {
  const file = path.join(folder, 'iut.toml');
  fs.writeFileSync(file, `[station]\naddress = "${address}"\n`);
  const args = ['verdict', '--all', '--json', file, capture];
  const {status, stdout, stderr} = spawnSync(PROGRAM, args, {encoding: 'utf8', maxBuffer: 1 << 28});
  assert.equal(status, 0, `station ${address}: ${stderr}`);
  return report.read(stdout);
}

/** The runs with a radio model: their captures are in the order of time. */
const RUNS = SAMPLES.filter(({text}) => /^\s*(\[air\]|air = )/m.test(text));

for (const {name, text} of RUNS) {
  for (const more of [[], ['--set', 'contention=true']]) {
    test(`${name} ${more.join(' ')}: verdicts are on the frames of their station`, {skip}, async () => {
      const folder = fs.mkdtempSync(path.join(os.tmpdir(), 'verdicts-'));
      const capture = path.join(folder, 'run.pcapng');
      const run = await read(print(text, '--json', '--notes', '--frames', capture, ...more));
      run.stations.forEach(({address}, station) => {
        const found = new judged.Verdicts(run, judge(folder, capture, address));
        assert.equal(found.listed, found.counts.pass + found.counts.inconclusive);
        const own = Array.from(run.frames.giver.values.subarray(0, run.frames.length), (giver, frame) =>
          ({frame, giver})).filter(({frame, giver}) =>
          run.held.isSent(frame) && run.events.station.values[giver] === station);
        // Each frame that the station sent has a verdict.
        assert.deepEqual(own.filter(({frame}) => found.of(frame).length === 0), []);
      });
      fs.rmSync(folder, {recursive: true});
    });
  }
}

test('verdicts on the sample of verdict are on the records of its capture', {skip}, () => {
  const [iut, file] = ['iut.toml', 'iut.cap'].map((name) => path.join(CASES, 'data', 'verdict', name));
  const {status, stdout, stderr} =
    spawnSync(PROGRAM, ['verdict', '--all', '--json', iut, file], {encoding: 'utf8'});
  assert.equal(status, 1, stderr);
  const {run} = capture.read(new Uint8Array(fs.readFileSync(file)));
  const found = new judged.Verdicts(run, report.read(stdout));
  const {pass, fail, inconclusive} = found.counts;
  assert.equal(found.listed, pass + fail + inconclusive);
  assert.equal(run.stations[found.station].address, '1400020000000100');
});

for (const [name, file] of [['loss', 'road-loss.toml'], ['comers', 'comers.toml']]) {
  test(`the kept run ${name} is the program’s`, {skip}, () => {
    const {text} = SAMPLES.find((sample) => sample.name === file);
    assert.equal(print(text, '--json', '--notes'), samples.kept(name));
  });
}
