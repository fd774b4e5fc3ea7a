// Pictures of the pages for looking: which line of which page, in which theme and width.
import { join } from 'node:path';
import { spawnSync } from 'node:child_process';
import { sleep } from './chromium.mjs';
import { Firefox } from './firefox.mjs';

const SHOTS = [
  { name: 'hidden_pointer', line: 11 },
  { name: 'hidden_pointer', line: 13, theme: 'dark' },
  { name: 'partial', line: 31, width: 1440 },
  { name: 'partial', line: 31, width: 400, height: 800 },
  { name: 'partial', line: 31, width: 720, height: 450, zoom: 2 },
  { name: 'busy', line: 178, width: 400, height: 800 },
  { name: 'partial', line: 20 },
  { name: 'partial', line: 31, theme: 'dark' },
  { name: 'stress', line: 166 },
  { name: 'stress', line: 187, width: 800, height: 900 },
  { name: 'busy', line: 178 },
  { name: 'busy', line: 292, theme: 'dark' },
  { name: 'refused', line: 43 },
  { name: 'refused', line: 43, width: 800, height: 900, theme: 'dark' },
  { name: 'many_pages', line: 60, scroll: 0 },
  { name: 'many_pages', line: 123, scroll: 1500 },
];

export async function takeShots(browser, folder, pages) {
  const url = new Map(pages);
  for (const { name, line, width = 1400, height = 900, theme = 'light', zoom = 1, scroll } of SHOTS) {
    const page = await browser.open(`${url.get(name)}#line=${line}`, { width, height, theme });
    await page.resize(width, height, zoom);
    if (scroll !== undefined) await page.run(`$('scroll').scrollTop = ${scroll}`);
    await sleep(200);
    await page.shot(join(folder, `${name}-${line}-${width}-${theme}.png`));
    await page.pdf(join(folder, `${name}-${line}.pdf`));
    await page.close();
  }
  if (!spawnSync(process.env.FIREFOX || 'firefox-esr', ['--version']).error) await shotsOfFirefox(folder, pages);
}

async function shotsOfFirefox(folder, pages) {
  const browser = new Firefox();
  try {
    await browser.connect();
    for (const [name, url] of pages) {
      await browser.open(`${url}#line=60`);
      await browser.run(`$('scroll').scrollTop = 400`);
      await sleep(300);
      await browser.shot(join(folder, `firefox-${name}.png`));
    }
  } finally {
    await browser.close();
  }
}
