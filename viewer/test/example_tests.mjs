// The stored traces that say they come from the proved core: `draw` writes the same records of the same lines. Which build
// of it is asked is said in tests/builds.sh.
import assert from 'node:assert/strict';
import { execFileSync } from 'node:child_process';
import { existsSync, writeFileSync } from 'node:fs';
import { dirname, join } from 'node:path';
import { fileURLToPath } from 'node:url';

const crates = join(dirname(fileURLToPath(import.meta.url)), '..', '..', 'crates');
const build = process.env.MPHEAP_PROGRAM || join(crates, 'mpheap', 'out', 'mpheap');

// where a build is, or null
export const findDraw = () => (existsSync(build) ? build : null);

export const isOfCore = ({ source }) => source === 'draw: the proved core';

export function drawWritesTheSame(draw, text, room) {
  const [about, ...lines] = text.trim().split('\n');
  const script = lines.map((line) => JSON.parse(line).c + '\n').join('');
  const file = join(room, 'script');
  writeFileSync(file, script);
  const drawn = execFileSync(draw, ['draw', '--pages', String(JSON.parse(about).pages), file], { encoding: 'utf8' });
  assert.deepEqual(drawn.trim().split('\n').slice(1), lines);
}
