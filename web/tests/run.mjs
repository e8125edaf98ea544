// node run.mjs PAGE FALSIFIED REPOSITORY [TEXT]: the page in a real browser. PAGE is the page; FALSIFIED one that was made to show fixed pairs as struck and
// struck pairs as fixed, in which the comparisons must fail. Prints a line for each test and 'N passed, M failed'. With TEXT only tests with it in their names.
import { readFileSync } from 'node:fs';
import { Browser } from './browser.mjs';
import { tests } from './tests.mjs';

const [page, falsified, root, only = ''] = process.argv.slice(2);
const url = (path) => `file://${path}`;
let passed = 0, failed = 0;

const browser = new Browser(process.env.CHROMIUM ?? 'chromium');
const guard = setTimeout(() => {
  console.log('FAILED: the browser did not answer in time');
  browser.process.kill('SIGKILL');
  process.exit(1);
}, 170000);
const tab = await browser.open(url(page), 800, 1200);
const given = { browser, tab, page, url, falsified, root, samples: `${root}/samples`, read: (name) => readFileSync(`${root}/${name}`, 'utf8') };
for (const [name, run] of tests.filter(([name]) => name.includes(only))) {
  const started = performance.now();
  try {
    // each begins with nothing kept, at the tablet's size, before all other tabs: those behind are not drawn
    await tab.send('Page.bringToFront');
    await tab.size(800, 1200);
    await tab.ask('localStorage.clear()');
    await tab.go(url(page));
    tab.errors.length = 0;
    const note = await run(given);
    if (tab.errors.length > 0) throw new Error(`the page said: ${tab.errors.join('; ')}`);
    passed += 1;
    console.log(`ok: ${name}${note ? `, ${note}` : ''} (${Math.round(performance.now() - started)} ms)`);
  } catch (error) {
    failed += 1;
    console.log(`FAILED: ${name}\n${String(error.stack).split('\n').slice(0, 8).join('\n')}`);
  }
}
clearTimeout(guard);
await browser.close();
console.log(`${passed} passed, ${failed} failed`);
process.exitCode = failed === 0 ? 0 : 1;
