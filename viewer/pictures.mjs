// Saves views of traces as SVG, by a headless Chromium:
//     node viewer/pictures.mjs FOLDER TRACE:LINE ..
// writes FOLDER/NAME-LINE.svg for each, where NAME is that of the file TRACE, which is the picture's title. It needs what
// test.mjs needs.
import { execFileSync } from 'node:child_process';
import { mkdirSync, mkdtempSync, readFileSync, rmSync, writeFileSync } from 'node:fs';
import { tmpdir } from 'node:os';
import { basename, dirname, join } from 'node:path';
import { fileURLToPath, pathToFileURL } from 'node:url';
import { Chromium } from './test/chromium.mjs';

const here = dirname(fileURLToPath(import.meta.url));
const room = mkdtempSync(join(tmpdir(), 'heap-pictures-'));
const [folder, ...views] = process.argv.slice(2);

// The address of the page with a trace, by the name of its file.
function joined(trace) {
  const [first, ...records] = readFileSync(trace, 'utf8').split('\n');
  const head = JSON.stringify({ ...JSON.parse(first), title: basename(trace) });
  const file = join(room, 'heap.html');
  writeFileSync(file, execFileSync(join(here, 'join.sh'), ['-'], { input: [head, ...records].join('\n') }));
  return pathToFileURL(file).href;
}

mkdirSync(folder, { recursive: true });
const browser = new Chromium();
try {
  for (const view of views) {
    const [, trace, line] = view.match(/^(.*):(\d+)$/);
    const page = await browser.open(`${joined(trace)}#line=${line}`, { width: 1000, height: 900 });
    writeFileSync(join(folder, `${basename(trace)}-${line}.svg`), await page.run('viewer.picture()'));
    await page.close();
  }
} finally {
  await browser.close();
  rmSync(room, { recursive: true, force: true });
}
