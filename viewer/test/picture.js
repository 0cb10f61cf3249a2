//! Takes the pictures of the page: `node viewer/test/picture.js FOLDER` writes light, dark and
//! narrow ones, and `run.png`, which is `docs/run.png`.

'use strict';

const fs = require('node:fs');
const path = require('node:path');
const {pathToFileURL} = require('node:url');
const {Page, findBrowser} = require('./devtools.js');
const {TOP} = require('./load.js');

const LOOKS = {
  light: [1280, 800, false], dark: [1280, 800, true],
  narrow: [390, 844, false], 'narrow-dark': [390, 844, true],
};

/** Opens the page with the sample in it. @param {Page} page */
async function openSample(page) {
  await page.go(pathToFileURL(path.join(TOP, 'index.html')).href);
  await page.value('document.getElementById("sample").click()');
  await page.until('document.body.dataset.state === "run"');
}

/** The picture of the documents: as wide as their text, down to the stations not reached. */
async function takeRun(page, file) {
  await page.look(900, 684, false);
  await openSample(page);
  const height = await page.value(
    'document.getElementById("missed-box").getBoundingClientRect().bottom + scrollY');
  await new Promise((resolve) => setTimeout(resolve, 300));
  const clip = {x: 0, y: 0, width: 900, height: Math.ceil(height), scale: 1};
  const shot = {format: 'png', captureBeyondViewport: true, clip};
  const {data} = await page.call('Page.captureScreenshot', shot);
  fs.writeFileSync(file, Buffer.from(data, 'base64'));
}

async function main(folder) {
  const page = await Page.start(findBrowser());
  for (const [name, [width, height, isDark]] of Object.entries(LOOKS)) {
    await page.look(width, height, isDark);
    await page.go(pathToFileURL(path.join(TOP, 'index.html')).href);
    await page.picture(path.join(folder, `${name}-empty.png`));
    await openSample(page);
    await page.value('document.getElementById("range").click()');
    await page.click('#missed .row:nth-child(2)');
    await page.picture(path.join(folder, `${name}.png`));
    if (width < 600) {
      await page.value('window.scrollTo(0, 760)');
      await page.picture(path.join(folder, `${name}-below.png`));
    }
  }
  await takeRun(page, path.join(folder, 'run.png'));
  await page.end();
}

main(process.argv[2]);
