//! The street net beneath the run: from SUMO's `net.xml`, whose metres in a UTM zone become degrees,
//! or from GeoJSON.

(function (geostation) {
  'use strict';

  /** A file isn't a street net that can be placed on the map. The message says why. */
  class NetFault extends Error {}

  /** How much of a file tells what it is, in octets. */
  const HEAD = 4096;

  /** The ellipsoid of WGS84. That of GRS80 differs by less than a millimetre. */
  const RADIUS = 6378137;
  const FLATTENING = 1 / 298.257223563;
  /** The scale of a UTM zone at its middle, and its easting there. */
  const SCALE = 0.9996;
  const FALSE_EASTING = 500000;
  const FALSE_NORTHING_SOUTH = 10000000;

  const E2 = FLATTENING * (2 - FLATTENING);
  const N = FLATTENING / (2 - FLATTENING);
  /** The radius of a sphere whose meridian is as long as that of the ellipsoid. */
  const RECTIFYING = (RADIUS / (1 + N)) * (1 + N ** 2 / 4 + N ** 4 / 64);
  /** Krüger's series from the map to the sphere, to the fourth power of N. */
  const BETA = [
    N / 2 - (2 / 3) * N ** 2 + (37 / 96) * N ** 3 - (1 / 360) * N ** 4,
    (1 / 48) * N ** 2 + (1 / 15) * N ** 3 - (437 / 1440) * N ** 4,
    (17 / 480) * N ** 3 - (37 / 840) * N ** 4,
    (4397 / 161280) * N ** 4,
  ];

  /** The latitude whose conformal latitude has this tangent, in radians. @param {number} tangent */
  function latitudeOf(tangent) {
    const e = Math.sqrt(E2);
    let t = tangent;
    for (let i = 0; i < 6; i += 1) {
      const sigma = Math.sinh(e * Math.atanh((e * t) / Math.hypot(1, t)));
      const conformal = t * Math.hypot(1, sigma) - sigma * Math.hypot(1, t);
      const slope = (Math.hypot(1, conformal) * Math.hypot(1, t) * (1 - E2)) /
        (1 + (1 - E2) * t * t);
      t += (tangent - conformal) / slope;
    }
    return Math.atan(t);
  }

  /**
   * The place of a point of a UTM zone, in degrees.
   * @param {number} easting in metres @param {number} northing in metres
   * @param {number} zone 1 to 60 @param {boolean} isSouth
   * @returns {{lat: number, lon: number}}
   */
  function ofUtm(easting, northing, zone, isSouth) {
    const xi = (northing - (isSouth ? FALSE_NORTHING_SOUTH : 0)) / (SCALE * RECTIFYING);
    const eta = (easting - FALSE_EASTING) / (SCALE * RECTIFYING);
    let [along, across] = [xi, eta];
    BETA.forEach((beta, i) => {
      const k = 2 * (i + 1);
      along -= beta * Math.sin(k * xi) * Math.cosh(k * eta);
      across -= beta * Math.cos(k * xi) * Math.sinh(k * eta);
    });
    const tangent = Math.sin(along) / Math.hypot(Math.sinh(across), Math.cos(along));
    const lon = Math.atan2(Math.sinh(across), Math.cos(along));
    return {
      lat: (latitudeOf(tangent) * 180) / Math.PI,
      lon: (lon * 180) / Math.PI + 6 * zone - 183,
    };
  }

  /** The value of an attribute of an element. @param {string} text @param {string} name */
  function attribute(text, name) {
    return new RegExp(`\\b${name}="([^"]*)"`).exec(text)?.[1];
  }

  /**
   * How the points of a net become degrees.
   * @param {string} location the attributes of its element `location`
   * @returns {(x: number, y: number) => {lat: number, lon: number}}
   */
  function projectionOf(location) {
    const projection = attribute(location, 'projParameter');
    if (projection === undefined || projection === '!') {
      throw new NetFault('This street net has no place on earth, as netgenerate makes them. ' +
        'Give its “location” a projection: docs/STUDY.md has the command.');
    }
    const zone = Number(/\+zone=(\d+)/.exec(projection)?.[1]);
    if (!/\+proj=utm\b/.test(projection) || !(zone >= 1 && zone <= 60)) {
      throw new NetFault(`This street net has the projection “${projection}”. The page reads only ` +
        '“+proj=utm” with a zone.');
    }
    const [dx, dy] = (attribute(location, 'netOffset') ?? '').split(',').map(Number);
    if (!Number.isFinite(dx) || !Number.isFinite(dy)) {
      throw new NetFault('The “netOffset” of this street net is missing or not two numbers.');
    }
    const isSouth = /\+south\b/.test(projection);
    return (x, y) => ofUtm(x - dx, y - dy, zone, isSouth);
  }

  /** Puts points of a line behind each other. @param {{lat: number, lon: number}[]} places */
  function lineOf(places) {
    const line = new Float64Array(2 * places.length);
    places.forEach(({lat, lon}, i) => {
      line[2 * i] = lat;
      line[2 * i + 1] = lon;
    });
    return line;
  }

  /** @param {Float64Array} line */
  function isLine(line) {
    return line.length >= 4 && line.every((value) => Number.isFinite(value));
  }

  /**
   * The streets of a `net.xml`: one line for each edge, that of its first lane. The short edges
   * inside junctions are left out.
   * @param {string} text @returns {Float64Array[]}
   */
  function ofSumo(text) {
    const location = /<location\b([^>]*)>/.exec(text);
    if (!location) throw new NetFault('This XML file is no street net: it has no “location”.');
    const project = projectionOf(location[1]);
    const lines = [];
    let isWanted = false;
    for (const [, edge, lane] of text.matchAll(/<edge\b([^>]*)>|<lane\b([^>]*)>/g)) {
      if (edge !== undefined) isWanted = attribute(edge, 'function') === undefined;
      if (lane === undefined || !isWanted) continue;
      isWanted = false;
      const points = (attribute(lane, 'shape') ?? '').split(' ');
      lines.push(lineOf(points.map((point) => project(...point.split(',').map(Number)))));
    }
    return lines;
  }

  /** The lines of a geometry of GeoJSON. @param {any} geometry @returns {number[][][]} */
  function linesOf(geometry) {
    switch (geometry?.type) {
      case 'FeatureCollection': return geometry.features.flatMap(linesOf);
      case 'Feature': return linesOf(geometry.geometry);
      case 'GeometryCollection': return geometry.geometries.flatMap(linesOf);
      case 'LineString': return [geometry.coordinates];
      case 'MultiLineString': case 'Polygon': return geometry.coordinates;
      case 'MultiPolygon': return geometry.coordinates.flat();
      default: return [];
    }
  }

  /** The lines of GeoJSON, whose points are longitude and latitude. @param {string} text */
  function ofGeoJson(text) {
    try {
      return linesOf(JSON.parse(text)).map((line) =>
        lineOf(line.map(([lon, lat]) => ({lat, lon}))));
    } catch (fault) {
      throw new NetFault(`This GeoJSON can’t be read: ${fault.message}.`);
    }
  }

  /** Whether a file begins as a street net. @param {string} head its first octets */
  function isNet(head) {
    if (/^\uFEFF?\s*</.test(head)) return true;
    const isGeoJson = /"type"\s*:\s*"(Feature|GeometryCollection|Multi|LineString|Polygon)/;
    return isGeoJson.test(head) && !/^\uFEFF?\s*\{\s*"stations"/.test(head);
  }

  /**
   * The streets of a file, each a line of latitudes and longitudes in degrees.
   * @param {string} text @returns {Float64Array[]}
   * @throws {NetFault} if it is no street net, or has no place on earth
   */
  function read(text) {
    const lines = (/^\uFEFF?\s*</.test(text) ? ofSumo(text) : ofGeoJson(text)).filter(isLine);
    if (lines.length === 0) throw new NetFault('This file has no streets.');
    return lines;
  }

  geostation.streets = {NetFault, HEAD, isNet, read, ofUtm};
})(globalThis.geostation ??= {});
