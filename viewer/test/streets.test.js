//! Street nets: UTM against PROJ, a net of SUMO against netconvert's own degrees, GeoJSON, and what
//! is no net or has no place.

'use strict';

const assert = require('node:assert/strict');
const test = require('node:test');
const {load} = require('./load.js');

const {ground, streets} = load();

/** Zone, south, easting, northing; latitude and longitude by PROJ 9.1 (pyproj 3.4.1, `Proj`). */
const POINTS = [
  [32, false, 691603.032, 5334780.031, 48.137400001, 11.5755],
  [32, false, 500000, 5327414.906, 48.099999997, 9],
  [32, false, 333262.575, 6655180.228, 60.000000004, 6.010000008],
  [33, false, 391779.259, 5820072.159, 52.519999998, 13.404999996],
  [56, true, 334368.634, 6250948.345, -33.868800004, 151.209300004],
  [18, false, 583959.372, 4507350.998, 40.712799998, -74.006000004],
  [1, false, 500000, 11.053, 0.0001, -177],
  [60, true, 822823.963, 9944663.622, -0.500000004, 179.900000004],
  [31, false, 566177.11, 8682329.601, 78.200000004, 5.9],
  [19, true, 441025.357, 1172753.137, -79.500000002, -71.900000019],
];

test('points of UTM zones are where PROJ has them, to a millimetre', () => {
  for (const [zone, isSouth, easting, northing, lat, lon] of POINTS) {
    const place = streets.ofUtm(easting, northing, zone, isSouth);
    assert.ok(Math.abs(place.lat - lat) < 1e-8, `${zone}: ${place.lat} ${lat}`);
    assert.ok(Math.abs(place.lon - lon) < 4e-8, `${zone}: ${place.lon} ${lon}`);
  }
});

/** A net as netgenerate and `sed` make it. @param {string} projection @param {string} offset */
function net(projection, offset = '-691600.00,-5334700.00') {
  return `<?xml version="1.0" encoding="UTF-8"?>
<!-- generated <net> -->
<net version="1.9">
    <location netOffset="${offset}" convBoundary="0,0,200,200" projParameter="${projection}"/>
    <edge id=":A0_0" function="internal">
        <lane id=":A0_0_0" index="0" speed="6.5" length="7.6" shape="0.00,0.00 1.00,1.00"/>
    </edge>
    <edge id="A0A1" from="A0" to="A1" priority="-1">
        <lane id="A0A1_0" index="0" speed="13.9" length="200" shape="0.00,0.00 0.00,200.00"/>
        <lane id="A0A1_1" index="1" speed="13.9" length="200" shape="3.20,0.00 3.20,200.00"/>
    </edge>
    <edge id="A1B1" from="A1" to="B1" priority="-1" shape="0.00,200.00 200.00,200.00">
        <lane id="A1B1_0" index="0" speed="13.9" length="200" shape="0.00,200.00 200.00,200.00"/>
    </edge>
</net>
`;
}

test('a net of SUMO is where netconvert has it, one line for each edge', () => {
  const lines = streets.read(net('+proj=utm +zone=32 +ellps=WGS84 +datum=WGS84 +units=m +no_defs'));
  assert.equal(lines.length, 2);
  // `netconvert --proj.plain-geo` writes these of the nodes A0, A1 and B1.
  const nodes = [[48.136682, 11.575423], [48.138479, 11.575513], [48.138419, 11.578199]];
  const ends = [...lines[0], ...lines[1].slice(2)];
  nodes.flat().forEach((value, i) =>
    assert.ok(Math.abs(ends[i] - value) < 6e-7, `${i}: ${ends[i]} ${value}`));
});

test('a net without a place on earth, or in another projection, is refused', () => {
  const refused = (text, why) => assert.throws(() => streets.read(text), (fault) =>
    fault instanceof streets.NetFault && why.test(fault.message));
  refused(net('!'), /no place on earth.*docs\/STUDY\.md/);
  refused(net('+proj=tmerc +lat_0=48'), /projection “\+proj=tmerc \+lat_0=48”/);
  refused(net('+proj=utm +zone=61'), /projection/);
  refused(net('+proj=utm +zone=32', 'here'), /“netOffset”/);
  refused('<net></net>', /no “location”/);
  refused(net('+proj=utm +zone=32').replace(/<lane[^>]*>/g, ''), /no streets/);
  refused(net('+proj=utm +zone=32').replaceAll(',200.00', ',x'), /no streets/);
  refused('{"type":"FeatureCollection","features":[]}', /no streets/);
  refused('{"type":"FeatureCollection","features":[', /can’t be read/);
  refused('{"type":"FeatureCollection"}', /can’t be read/);
});

test('GeoJSON: lines and the borders of areas, longitude first', () => {
  const line = [[11.5, 48.1], [11.6, 48.2, 520]];
  const features = [
    {type: 'Feature', properties: {}, geometry: {type: 'LineString', coordinates: line}},
    {type: 'Feature', geometry: {type: 'MultiLineString', coordinates: [line, line]}},
    {type: 'Feature', geometry: {type: 'Polygon', coordinates: [[...line, line[0]]]}},
    {type: 'Feature', geometry: {type: 'MultiPolygon', coordinates: [[[...line, line[0]]]]}},
    {type: 'Feature', geometry: {type: 'Point', coordinates: line[0]}},
    {type: 'Feature', geometry: null},
  ];
  const lines = streets.read(JSON.stringify({type: 'FeatureCollection', features}));
  assert.equal(lines.length, 5);
  assert.deepEqual([...lines[0]], [48.1, 11.5, 48.2, 11.6]);
});

test('a net is told from a run by its first octets', () => {
  for (const head of ['<?xml version="1.0"?>', '\uFEFF<net>', ' <!-- a -->',
    '{"type": "FeatureCollection"', '{\n "name": "a",\n "type":"Feature"']) {
    assert.equal(streets.isNet(head), true, head);
  }
  for (const head of ['{"stations":[{"address":"14"', '{"stations":[{"id":"\\"type\\":', '',
    '{"stations":[{"id":"a","type":"Feature"', '\x89PNG']) {
    assert.equal(streets.isNet(head), false, head);
  }
});

test('the streets in sight, on the screen', () => {
  const lines = [Float64Array.of(0, 0, 0.001, 0), Float64Array.of(0, 0.001, 0, 0.002)];
  const map = {origin: {lat: 0, lon: 0}, box: {width: 400, height: 200},
    view: {east: 0, north: 0, scale: 1},
    screen: ({east, north}) => ({x: 200 + east, y: 100 - north})};
  const shown = new ground.Ground(undefined, map);
  shown.streets = ground.placed(lines, map.origin);
  const path = (street) => {
    const points = [];
    const add = (x, y) => points.push([Math.round(x), Math.round(y)]);
    shown.walk(street, {moveTo: add, lineTo: add});
    return points;
  };
  // A thousandth of a degree is 111 m at the equator.
  assert.deepEqual(shown.inSight().map(path), [[[200, 100], [200, -11]], [[311, 100], [423, 100]]]);
  map.view.east = -120;
  map.view.north = 50;
  assert.deepEqual(shown.inSight().map(path), [[[200, 100], [200, -11]]]);
});
