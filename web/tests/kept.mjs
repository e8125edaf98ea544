// Tests of what leaves the page and what stays: files that are saved, what the browser keeps, a change taken back, and that nothing goes to a network.
import assert from 'node:assert';
import { readFileSync, rmSync, writeFileSync } from 'node:fs';
import { join } from 'node:path';
import { withFolder } from './folder.mjs';
import { answer, desk } from './seen.mjs';

// ---- files that are saved

export async function saved({ browser, tab, samples, read }) {
  return withFolder(async (folder) => {
    await browser.send('Browser.setDownloadBehavior', { behavior: 'allow', downloadPath: folder, eventsEnabled: true });
    const press = async (text, name) => {
      // the file is there before its bytes are
      const whole = browser.next((method, params) => method === 'Browser.downloadProgress' && params.state === 'completed');
      await tab.ask((wanted) => [...document.querySelectorAll('button')].find((button) => button.innerText === wanted && button.offsetParent).click(), text);
      await whole;
      const bytes = readFileSync(join(folder, name));
      rmSync(join(folder, name));
      return bytes;
    };
    await tab.give(`${samples}/district.txt`);
    assert.deepStrictEqual(await press('Save the roster', 'district.roster'), readFileSync(`${samples}/district.roster`));
    const text = await press('Save it as text', 'district.txt');
    writeFileSync(join(folder, 'again.txt'), text);
    await tab.give(join(folder, 'again.txt'));
    assert.deepStrictEqual(await press('Save the roster', 'again.roster'), readFileSync(`${samples}/district.roster`));
    for (const name of ['district', 'days']) {
      await tab.give(`${samples}/${name}.roster`);
      await tab.give(`${samples}/${name}.plan`);
      assert.deepStrictEqual(await press('Save the plan', `${name}.plan`), readFileSync(`${samples}/${name}.plan`));
      await tab.click('#tab-days');
      assert.strictEqual((await press('Save by surveyor', `${name}.surveyors.txt`)).toString(), read(`samples/${name}.surveyors`));
      assert.strictEqual((await press('Save by stand', `${name}.stands.txt`)).toString(), read(`samples/${name}.stands`));
    }
  });
}

// ---- kept, and alone

export async function kept({ tab, samples }) {
  await tab.give(`${samples}/district.roster`);
  await tab.click('#tab-desk');
  await tab.click('#hold-found');
  await tab.click('[data-draft="12 13 1"]');
  await tab.click('#propose');
  const before = await desk(tab);
  await tab.click('#tab-roster');
  await tab.click('[data-node="1 8"]');
  await tab.key('Home');
  await tab.key('ArrowRight', 5);
  const state = () => ({
    title: document.querySelector('#title').innerText,
    now: document.querySelector('#now').innerText,
    card: document.querySelector('#card').innerText,
    said: document.querySelector('#kept').innerText,
  });
  const shown = await tab.ask(state);
  assert(/^Kept in this browser/.test(shown.said) && /^Step 5 of/.test(shown.now), JSON.stringify(shown));
  await tab.send('Network.emulateNetworkConditions', { offline: true, latency: 0, downloadThroughput: 0, uploadThroughput: 0 });
  await tab.reload();
  assert.deepStrictEqual(await tab.ask(state), shown);
  assert.deepStrictEqual(await desk(tab), before);
  await tab.send('Network.emulateNetworkConditions', { offline: false, latency: 0, downloadThroughput: -1, uploadThroughput: -1 });
  // a text that is being written is kept as well, without a roster
  await tab.ask('localStorage.clear()');
  await tab.reload();
  await tab.click('#write-first');
  await tab.write('#text', 'surveyor 1: 1');
  await tab.reload();
  assert.strictEqual(await tab.ask("document.querySelector('#text').value"), 'surveyor 1: 1');
  await tab.give(`${samples}/district.roster`);
  // what is kept is judged anew: bytes that are no desk of a roster are not taken up
  await tab.ask("localStorage.setItem('crew', JSON.stringify({ ...JSON.parse(localStorage.getItem('crew')), desk: btoa('nothing') }))");
  await tab.reload();
  assert.strictEqual(await tab.ask("document.querySelector('#answer').hidden"), true);
}

export async function takenBack({ tab, samples }) {
  await tab.give(`${samples}/days.roster`);
  await tab.click('#tab-desk');
  await tab.click('#hold-found');
  await tab.click('[data-draft="1 2 1"]');
  await tab.click('#propose');
  const before = [await answer(tab), await desk(tab)];
  await tab.choose('#leave-number', '1');
  await tab.click('#leave');
  const text = await tab.ask("document.querySelector('#changed').innerText");
  assert(/surveyor 1 leaves/.test(text) && /The held plan lost 2 pairs/.test(text) && /The proposal was closed/.test(text), text);
  assert.notDeepStrictEqual([await answer(tab), await desk(tab)], before);
  await tab.reload();
  await tab.click('#take-back');
  assert.deepStrictEqual([await answer(tab), await desk(tab)], before);
}

export async function nothingKept({ tab, samples, page, url }) {
  const source = "Object.defineProperty(window, 'localStorage', { get() { throw new Error('no storage'); } })";
  const { identifier } = await tab.send('Page.addScriptToEvaluateOnNewDocument', { source });
  await tab.go(url(page));
  await tab.give(`${samples}/tied.roster`);
  assert(/keeps nothing/.test(await tab.ask("document.querySelector('#kept').innerText")));
  await tab.send('Page.removeScriptToEvaluateOnNewDocument', { identifier });
  await tab.go(url(page));
}

export async function noNetwork({ tab, page, url }) {
  const outside = tab.requests.filter((request) => request !== url(page) && !request.startsWith('blob:null/'));
  assert.deepStrictEqual(outside, []);
  const refusedBy = await tab.ask(async () => {
    const met = [];
    document.addEventListener('securitypolicyviolation', (event) => met.push(event.effectiveDirective));
    await fetch('https://example.org/').catch(() => {});
    const image = new Image();
    image.src = 'https://example.org/x.png';
    const script = document.createElement('script');
    script.textContent = 'window.intruder = true';
    const style = document.createElement('style');
    style.textContent = 'body { color: red }';
    const frame = document.createElement('iframe');
    frame.src = 'https://example.org/';
    document.body.append(image, script, style, frame);
    try {
      new WebSocket('wss://example.org/');
    } catch {
      // it may throw at once
    }
    await new Promise((resolve) => setTimeout(resolve, 200));
    return { met: [...new Set(met)].sort(), intruder: window.intruder ?? null };
  });
  assert.deepStrictEqual(refusedBy, { met: ['connect-src', 'frame-src', 'img-src', 'script-src-elem', 'style-src-elem'], intruder: null });
  tab.errors.length = 0;
  assert(!/https?:/.test(readFileSync(page, 'utf8').replaceAll('http://www.w3.org/2000/svg', '').replaceAll('http-equiv', '')));
}
