// Tests of the page for everyone who uses it: by keyboard alone, with enough contrast, with names for what can be pressed, on every screen and on paper.
import assert from 'node:assert';

const VIEWS = ['roster', 'answer', 'desk', 'days', 'write'];
const LEAST_CONTRAST = 4.5;

// ---- by keyboard alone

const SHIFT = 8;
const CONTROL = 2;

// presses Tab, or Shift and Tab, until what has the focus is this
async function tabTo(tab, selector, modifiers = 0) {
  for (let left = 150; left > 0; left--) {
    if (await tab.ask((wanted) => document.activeElement.matches(wanted), selector)) return seenFocus(tab, selector);
    await tab.key('Tab', 1, modifiers);
  }
  throw new Error(`the Tab key does not lead to ${selector}`);
}

// the focus can be seen
async function seenFocus(tab, selector) {
  const seen = await tab.ask(() => {
    const element = document.activeElement;
    const style = getComputedStyle(element.matches('.node') ? element.querySelector('rect') : element);
    return style.outlineStyle !== 'none' || (element.matches('.node') && style.stroke !== 'none');
  });
  assert(seen, `the focus on ${selector} cannot be seen`);
}

export async function keyboard({ tab }) {
  const shows = async (selector, words) => {
    const text = await tab.ask((wanted) => document.querySelector(wanted).innerText, selector);
    assert(words.test(text), `${words} is not in: ${text}`);
  };
  await tabTo(tab, '#pick-first');
  await tab.key('d');
  await tab.until("document.querySelector('#title').innerText === 'district' && document.querySelectorAll('#diary li').length === 62");
  await tabTo(tab, '#slide');
  await tab.key('ArrowLeft', 3);
  await shows('#now', /^Step 59 of 62/);
  await tabTo(tab, '.node');
  await tab.key('ArrowDown');
  await tab.key('Enter');
  await shows('#card', /^surveyor 2 alone/i);
  await tab.key('ArrowRight');
  await tab.key(' ');
  await shows('#card', /^stand 2 alone/i);
  await tab.key('Escape');
  assert(await tab.ask("document.querySelector('#card').hidden"));
  await tabTo(tab, '#diary');
  await tab.key('ArrowUp', 2);
  await shows('#now', /^Step 57 of 62/);
  await tabTo(tab, '#tab-roster', SHIFT);
  await tab.key('ArrowRight', 2);
  await tabTo(tab, '#hold-found');
  await tab.key('Enter');
  await shows('#held', /It is strong/);
  await tabTo(tab, '[data-draft="12 13 1"]');
  await tab.key(' ');
  assert.strictEqual(await tab.ask('document.activeElement.getAttribute("aria-pressed")'), 'false');
  await tabTo(tab, '#propose');
  await tab.key('Enter');
  await tabTo(tab, '#commit');
  await tab.key('Enter');
  await shows('#held', /It is beaten/);
  await tabTo(tab, '#join-list');
  await tab.type('14 3');
  await tab.key('Enter');
  await shows('#changed', /surveyor 13 joins/);
  await tabTo(tab, '#tab-desk', SHIFT);
  await tab.key('ArrowRight', 2);
  await tabTo(tab, '#text');
  await tab.key('a', 1, CONTROL);
  await tab.type('surveyor 1: 1\nstand 1: 1\n');
  await tabTo(tab, '#use');
  await tab.key('Enter');
  await shows('#said p', /^1 pair\./);
  await tab.send('Page.setInterceptFileChooserDialog', { enabled: true });
  await tabTo(tab, '#open');
  await tab.key('Enter');
  for (let left = 100; left > 0 && !tab.events.includes('Page.fileChooserOpened'); left--) await new Promise((resolve) => setTimeout(resolve, 20));
  assert(tab.events.includes('Page.fileChooserOpened'));
  await tab.send('Page.setInterceptFileChooserDialog', { enabled: false });
}

// ---- contrast

// the least contrast of all texts that are shown, with the text that has it
const leastContrast = () => {
  const channels = (colour) => /rgba?\(([^)]+)\)/.exec(colour)[1].split(/[, /]+/).map(Number);
  const light = ([r, g, b]) => {
    const linear = [r, g, b].map((value) => (value / 255 <= 0.04045 ? value / 255 / 12.92 : ((value / 255 + 0.055) / 1.055) ** 2.4));
    return 0.2126 * linear[0] + 0.7152 * linear[1] + 0.0722 * linear[2];
  };
  const over = ([r, g, b, a = 1], below) => [r, g, b].map((value, index) => value * a + below[index] * (1 - a));
  // what is behind an element: in the picture the shapes before it in its group, elsewhere the backgrounds of those around it
  const behind = (element) => {
    const group = element.closest('.node');
    if (group && element.matches('text.number')) return channels(getComputedStyle(group.querySelector('circle.number')).fill);
    const around = [];
    for (let at = element; at; at = at.parentElement) around.push(channels(getComputedStyle(at).backgroundColor));
    if (group) around.unshift(channels(getComputedStyle(group.querySelector('rect')).fill));
    return around.reverse().reduce((below, colour) => over(colour, below), [255, 255, 255]);
  };
  let least = { contrast: 21, text: '' };
  let count = 0;
  const walker = document.createTreeWalker(document.body, NodeFilter.SHOW_TEXT);
  for (let node = walker.nextNode(); node; node = walker.nextNode()) {
    const element = node.parentElement;
    if (!node.data.trim() || element.closest('script, option') || !element.checkVisibility({ checkVisibilityCSS: true })) continue;
    if (element.getClientRects().length === 0) continue;
    const style = getComputedStyle(element);
    const back = behind(element);
    const fore = over(channels(element.namespaceURI.endsWith('svg') ? style.fill : style.color), back);
    const [a, b] = [light(fore), light(back)].sort((one, other) => other - one);
    const contrast = (a + 0.05) / (b + 0.05);
    count += 1;
    if (contrast < least.contrast) least = { contrast, text: `${node.data.trim().slice(0, 40)} (${element.tagName} ${element.getAttribute('class') ?? ''})` };
  }
  return { ...least, count };
};

export async function contrasts({ tab, samples }) {
  let least = { contrast: 21 };
  let count = 0;
  const look = async (where) => {
    const seen = await tab.ask(leastContrast);
    count += seen.count;
    if (seen.contrast < least.contrast) least = { ...seen, where };
  };
  await look('welcome');
  for (const name of ['district', 'beaten', 'crossed', 'shifts', 'cut-short']) {
    await tab.give(`${samples}/${name}.roster`);
    await look(name);
    for (const view of VIEWS) {
      await tab.click(`#tab-${view}`);
      if (view === 'desk' && (await tab.ask("document.querySelector('#hold-found') !== null"))) await tab.click('#hold-found');
      if (view === 'roster') {
        await tab.click('[data-node="0 1"]');
        await tab.key('Home');
        await tab.key('ArrowRight');
      }
      await tab.ask("document.querySelectorAll('details').forEach((part) => { part.open = true; })");
      await look(`${name}, ${view}`);
    }
    await tab.click('#tab-roster');
  }
  assert(count > 1000, `only ${count} texts`);
  assert(least.contrast >= LEAST_CONTRAST, JSON.stringify(least));
  return `the least is ${least.contrast.toFixed(2)} of ${count} texts`;
}

// ---- names

const PRESSED = ['button', 'combobox', 'textbox', 'slider', 'spinbutton', 'tab', 'listbox', 'checkbox', 'link'];

export async function accessible({ tab, samples }) {
  let count = 0;
  await tab.give(`${samples}/district.roster`);
  for (const view of VIEWS) {
    await tab.click(`#tab-${view}`);
    if (view === 'desk') await tab.click('#hold-found');
    const { nodes } = await tab.send('Accessibility.getFullAXTree');
    const pressed = nodes.filter((node) => !node.ignored && PRESSED.includes(node.role?.value));
    count += pressed.length;
    for (const node of pressed) assert(/[a-z0-9]/i.test(node.name?.value ?? ''), `${view}: a ${node.role.value} has the name '${node.name?.value}'`);
  }
  assert.strictEqual(await tab.ask('document.documentElement.lang'), 'en');
  return `${count} of them`;
}

// ---- screens and paper

export async function layouts({ tab, samples }) {
  const sizes = [[800, 1200], [1200, 800], [1024, 1366], [1440, 900], [600, 960]];
  for (const [width, height] of sizes) {
    await tab.size(width, height);
    for (const name of ['district', 'beaten', 'longest', 'shifts-left']) {
      await tab.give(`${samples}/${name}.roster`);
      for (const view of VIEWS) {
        await tab.click(`#tab-${view}`);
        if (view === 'desk' && (await tab.ask("document.querySelector('#hold-found') !== null"))) await tab.click('#hold-found');
        const { wide, low } = await tab.ask(() => ({
          wide: document.documentElement.scrollWidth - window.innerWidth,
          low: [...document.querySelectorAll('button:not(.small), select, input:not([type=range])')]
            .filter((element) => element.offsetParent && element.getBoundingClientRect().height < 43.5)
            .map((element) => element.outerHTML.slice(0, 80)),
        }));
        assert(wide <= 0, `${name}, ${view} at ${width} by ${height}: ${wide} too wide`);
        assert.deepStrictEqual(low, [], `${name}, ${view} at ${width} by ${height}: too low for a finger`);
      }
      await tab.click('#tab-roster');
    }
  }
  return `${sizes.length} sizes`;
}

export async function printed({ tab, samples }) {
  await tab.give(`${samples}/district.roster`);
  await tab.click('#tab-desk');
  await tab.click('#hold-found');
  const pages = [];
  for (const view of VIEWS.slice(0, 4)) {
    await tab.click(`#tab-${view}`);
    await tab.send('Emulation.setEmulatedMedia', { media: 'print' });
    const shown = await tab.ask((name) => ({
      header: document.querySelector('header').offsetHeight,
      tabs: document.querySelector('#tabs').offsetHeight,
      buttons: [...document.querySelectorAll('button')].filter((button) => button.offsetParent).map((button) => button.innerText),
      view: document.querySelector(`#view-${name}`).innerText.length,
      cut: document.querySelector('#diary').scrollHeight - document.querySelector('#diary').clientHeight,
    }), view);
    assert.deepStrictEqual({ header: shown.header, tabs: shown.tabs, buttons: shown.buttons }, { header: 0, tabs: 0, buttons: [] }, view);
    assert(shown.view > 100 && shown.cut <= 0, JSON.stringify(shown));
    await tab.send('Emulation.setEmulatedMedia', { media: '' });
    const pdf = (await tab.pdf()).toString('latin1');
    assert(pdf.startsWith('%PDF'));
    pages.push(`${view} ${[...pdf.matchAll(/\/Type\s*\/Page\b/g)].length}`);
  }
  return `pages: ${pages.join(', ')}`;
}
