//! Ways to open a run: the one in the page itself, choosing a file, dropping files, the sample, and
//! `?run=NAME` if the page is served.

(function (geostation) {
  'use strict';

  const {byId} = geostation.dom;
  const {files} = geostation;
  const {RunFault} = geostation.reading;

  /**
   * The octets of a file, a piece at a time, as the browser has them: more is fetched while one is
   * read.
   * @param {Blob} blob @param {(words: string) => void} tell
   */
  async function* pieces(blob, tell) {
    const reader = blob.stream().getReader();
    let [read, told] = [0, -1];
    try {
      for (let piece = await reader.read(); !piece.done; piece = await reader.read()) {
        const percent = Math.floor((100 * read) / blob.size);
        if (percent !== told) tell(`Reading: ${percent} %`);
        told = percent;
        read += piece.value.length;
        yield piece.value;
      }
    } finally {
      // A line that is refused ends the reading before the file's end.
      await reader.cancel();
    }
  }

  /**
   * Opens the run and the street net that `geostation view` has put into the page. They aren't kept
   * there, as they are read only once. A run that the browser can't read is reported.
   * @param {(blob: Blob, name: string) => Promise<void>} open
   * @param {(name: string, why: string) => void} refuse
   */
  async function inside(open, refuse) {
    const {name, large} = byId('inside').dataset;
    const run = taken('inside');
    const net = byId('net') ? {name: byId('net').dataset.name, text: taken('net')} : undefined;
    if (name === undefined) return;
    if (large !== undefined) return void refuse(name, files.TOO_LARGE[large] ?? files.UNREADABLE);
    if (run.trim() === '') return void refuse(name, files.UNREADABLE);
    await open(blobOf(run), name);
    if (net) await open(blobOf(spelledOut(net.text)), net.name);
  }

  /**
   * The text of an element, which is taken from the page. It is empty if the browser can't hold it.
   * @param {string} id
   */
  function taken(id) {
    const element = byId(id);
    try {
      return element.textContent;
    } catch {
      return '';
    } finally {
      element.remove();
    }
  }

  /** A text as a file, without the line feed at its front. @param {string} text */
  function blobOf(text) {
    return new Blob([text]).slice(text.startsWith('\n') ? 1 : 0);
  }

  /** XML as it was before its signs `<` were spelled for the page. @param {string} text */
  function spelledOut(text) {
    return /^\s*\\u003c/.test(text) ? text.replaceAll('\\u003c', '<') : text;
  }

  /** @param {(blob: Blob, name: string) => Promise<void>} open */
  function shown(open) {
    const input = byId('file');
    const pick = () => input.click();
    byId('open').addEventListener('click', pick);
    byId('choose').addEventListener('click', pick);
    byId('sample').addEventListener('click', () =>
      open(new Blob([geostation.sample]), 'sample: ice on a road'));
    input.addEventListener('change', () => {
      openAll(open, input.files);
      input.value = '';
    });
  }

  /** @param {(blob: Blob, name: string) => Promise<void>} open */
  function dropped(open) {
    const drop = byId('drop');
    document.addEventListener('dragover', (event) => {
      event.preventDefault();
      drop.hidden = false;
    });
    document.addEventListener('dragleave', (event) => {
      if (event.relatedTarget === null) drop.hidden = true;
    });
    document.addEventListener('drop', (event) => {
      event.preventDefault();
      drop.hidden = true;
      openAll(open, event.dataTransfer.files);
    });
  }

  /**
   * Opens files one by one, the run first, as the others go with it.
   * @param {(blob: Blob, name: string) => Promise<void>} open @param {FileList} list
   */
  async function openAll(open, list) {
    const kinds = await Promise.all(Array.from(list, async (file) =>
      ({file, isRun: /^(run|capture)$/.test(await files.kindOf(file).catch(() => 'run'))})));
    const sorted = [...kinds.filter(({isRun}) => isRun), ...kinds.filter(({isRun}) => !isRun)];
    for (const {file} of sorted) await open(file, file.name);
  }

  /**
   * `?run=NAME` opens a file from the server of the page.
   * @param {(blob: Blob, name: string) => Promise<void>} open
   * @param {(name: string, why: string) => void} refuse
   */
  async function named(open, refuse) {
    const name = new URLSearchParams(location.search).get('run');
    if (name === null) return;
    try {
      const address = new URL(name, location.href);
      if (address.origin !== location.origin || location.protocol === 'file:') {
        throw new RunFault('“?run=” opens only files from the server of this page.');
      }
      const answer = await fetch(address);
      if (!answer.ok) throw new RunFault(`The server answered ${answer.status}.`);
      await open(await answer.blob(), name);
    } catch (fault) {
      refuse(name, files.reasonOf(fault));
    }
  }

  geostation.open = {pieces, inside, shown, dropped, named};
})(globalThis.geostation ??= {});
