//! What a file is that is opened: a run or a capture, or what goes with one: its load, a street net,
//! verdicts; and why one can't be read, in a sentence.

(function (geostation) {
  'use strict';

  const {load, reading, records, report, streets} = geostation;
  /** The errors whose message is a sentence for a person. */
  const FAULTS = [reading.RunFault, records.CaptureFault, report.ReportFault, streets.NetFault];

  /** What a page can't hold, by the keyword that `geostation view` wrote. */
  const TOO_LARGE = {
    lines: 'The run is too large to stand in a page. Drop its file here.',
    scenario: 'The run of this scenario is too large to stand in a page. ' +
      'Save it by “geostation sim --json” and drop that file here.',
    net: 'This street net is too large to stand in a page. ' +
      'Make the page without “--net” and drop the net on it.',
  };

  const UNREADABLE = 'This page holds a run, but the browser can’t read it: the run is too large, ' +
    'or the file of the page is cut. Drop the file of the run here.';

  /**
   * What a file is, by its first octets.
   * @param {Blob} blob @returns {Promise<'capture' | 'load' | 'net' | 'report' | 'run'>}
   */
  async function kindOf(blob) {
    const octets = new Uint8Array(await blob.slice(0, streets.HEAD).arrayBuffer());
    if (records.isCapture(octets)) return 'capture';
    const head = new TextDecoder().decode(octets);
    if (head.startsWith(load.HEAD)) return 'load';
    if (report.isReport(head)) return 'report';
    return streets.isNet(head) ? 'net' : 'run';
  }

  /** Why a file can't be read, in a sentence. @param {any} fault */
  function reasonOf(fault) {
    if (FAULTS.some((kind) => fault instanceof kind)) return fault.message;
    if (fault instanceof RangeError) return 'The browser has too little memory for this file.';
    return `The browser can’t read this file: ${fault.message}.`;
  }

  geostation.files = {kindOf, reasonOf, TOO_LARGE, UNREADABLE};
})(globalThis.geostation ??= {});
