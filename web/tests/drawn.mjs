// Tests of what the page draws of an answer: the steps, the picture, the words of the rules, one number alone, who faced whom.
import assert from 'node:assert';

export async function steps({ tab, samples, read }) {
  const diary = read('samples/district.out').split('\n').filter((line) => /^(fix|strike)/.test(line));
  await tab.give(`${samples}/district.roster`);
  const rules = await tab.ask("[...document.querySelectorAll('#rules li')].map((item) => item.textContent)");
  await tab.key('Home');
  for (let step = 0; step <= diary.length; step++) {
    const { now, fixed, struck, slide, filled } = await tab.ask(() => ({
      filled: document.querySelectorAll('.dots .filled').length,
      now: document.querySelector('#now').innerText,
      fixed: [...document.querySelectorAll('.pair.fixed')].map((line) => line.dataset.line).sort(),
      struck: [...document.querySelectorAll('.pair.struck')].map((line) => line.dataset.line).sort(),
      slide: document.querySelector('#slide').value,
    }));
    const until = diary.slice(0, step).map((line) => line.split(' '));
    const named = (fate) => until.filter(([word]) => word === fate).map((words) => words.slice(1, 4).join(' ')).sort();
    assert.deepStrictEqual([fixed, struck], [named('fix'), named('strike')], `step ${step}`);
    assert.deepStrictEqual([Number(slide), filled], [step, 2 * fixed.length]);
    if (step > 0) {
      const [fate, surveyor, stand, , rule] = until.at(-1);
      const became = { fix: 'fixed', strike: 'struck out' }[fate];
      assert.strictEqual(now, `Step ${step} of ${diary.length}: surveyor ${surveyor} – stand ${stand} is ${became}. Rule ${rule}: ${rules[rule - 1]}`);
    }
    await tab.key('ArrowRight');
  }
  await tab.ask("document.querySelector('#slide').value = 7; document.querySelector('#slide').dispatchEvent(new Event('input'))");
  assert(/^Step 7 of/.test(await tab.ask("document.querySelector('#now').innerText")));
}

// the picture behind the last step: the pairs left; candidate and rival
export async function ending({ tab, samples, read }) {
  for (const [name, classes] of [['crossed', { left: 'none left' }], ['beaten', { candidate: 'candidate', rival: 'rival' }], ['tied', { rival: 'rival' }]]) {
    const lines = read(`samples/${name}.out`).split('\n');
    await tab.give(`${samples}/${name}.roster`);
    for (const [kind, word] of Object.entries(classes)) {
      const at = lines.findIndex((line) => line.startsWith(`${word} `));
      const expected = lines.slice(at + 1, at + 1 + Number(lines[at].split(' ').at(-1)));
      const drawn = await tab.ask((wanted) => [...document.querySelectorAll(`.pair.${wanted}`)].map((line) => line.dataset.line).sort(), kind);
      assert.deepStrictEqual(drawn, expected, `${name}, ${kind}`);
    }
  }
}

export async function rulesOnPaper({ tab, read }) {
  const paper = read('docs/DECISIONS.md');
  const words = await tab.ask("[...document.querySelectorAll('#rules li, #terms dd')].map((item) => item.textContent)");
  assert.strictEqual(words.length, 12);
  for (const sentence of words) assert(paper.includes(sentence), `docs/DECISIONS.md lacks: ${sentence}`);
}

export async function alone({ tab, samples }) {
  await tab.give(`${samples}/walked.roster`);
  const check = async (side, number) => {
    await tab.click(`[data-node="${side} ${number}"]`);
    const { shown, of, rows } = await tab.ask((wanted) => ({
      shown: [...document.querySelectorAll('.pair:not(.hidden)')].map((line) => line.dataset.line).sort(),
      of: [...document.querySelectorAll('.pair')].map((line) => line.dataset.line).filter((line) => line.split(' ')[wanted[0]] === String(wanted[1])).sort(),
      rows: [...document.querySelectorAll('#card tbody tr')].map((line) => [...line.children].map((cell) => cell.innerText).join(' | ')),
    }), [side, number]);
    assert.deepStrictEqual(shown, of);
    return rows;
  };
  // by its list: the rank, the other end, the rank there, what became of the pair, and by which step
  const first = ['1st | 1, shift 1 | 1st | fixed | step 1', '2nd | 2, shift 1 | tied | fixed | step 6', '3rd | 3, shift 1 | 2nd | struck out | step 3'];
  assert.deepStrictEqual(await check(0, 1), first);
  assert.deepStrictEqual(await check(1, 2), ['1st (tied) | 1, shift 1 | 2nd | fixed | step 6', '1st (tied) | 3, shift 1 | 1st | fixed | step 7']);
  await tab.click('#card td button');
  assert(/^Step 6 of 7/.test(await tab.ask("document.querySelector('#now').innerText")));
  await tab.key('End');
  await tab.click('[data-node="1 2"]');
  assert.strictEqual(await tab.ask("document.querySelectorAll('.pair.hidden').length"), 0);
}

export async function facing({ tab, samples }) {
  for (const [name, vote] of [['beaten', -1], ['tied', 0]]) {
    await tab.give(`${samples}/${name}.roster`);
    await tab.click('#tab-answer');
    const { sum, votes } = await tab.ask(() => ({
      sum: [...document.querySelectorAll('.facing tbody tr')].reduce((total, row) => total + Number(row.lastChild.innerText.replace('−', '-')), 0),
      votes: document.querySelector('[data-votes]').innerText,
    }));
    assert.strictEqual(sum, vote, name);
    assert(votes.includes(`against the rival is ${String(vote).replace('-', '−')},`), votes);
  }
}
