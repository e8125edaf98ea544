// What a user sees on the page, read back from its text as lines: the finder's answer as the program crew prints it, and what the desk holds and answers as
// the example session of rust/planner tells it.

// Functions that are put into the page: pairs in a list of that name, steps in the diary, by what is written there.
function readers() {
  const all = (selector) => [...document.querySelectorAll(selector)];
  const number = (text) => Number(text.replace('−', '-').replace('+', ''));
  window.seen = {
    pairs(name) {
      const box = document.querySelector(`[data-list="${name}"]`);
      if (!box) throw new Error(`no list ${name} is shown`);
      return [...box.querySelectorAll('tbody tr')].flatMap((row) =>
        [...row.querySelectorAll('.chip')].map((chip) => {
          const [, stand, shift] = /^(\d+)(?:, shift (\d))?$/.exec(chip.innerText);
          return `${row.querySelector('th').innerText} ${stand} ${shift ?? 1}`;
        }),
      );
    },
    counted(line, name) {
      const pairs = window.seen.pairs(name);
      return [`${line} ${pairs.length}`, ...pairs];
    },
    steps: () =>
      all('#diary li').map((item) => {
        // what has been scrolled away is laid out when it is needed, so it has no innerText
        const [, pair, fate, rule] = [...item.children].map((part) => part.textContent);
        const [surveyor, stand, shift] = pair.split(/ [–/] /);
        return `${{ fixed: 'fix', 'struck out': 'strike' }[fate]} ${surveyor} ${stand} ${shift ?? 1} ${rule.replace('rule ', '')}`;
      }),
    vote: (selector) => number(/[−+]?\d+(?=\D*$)/.exec(document.querySelector(selector).innerText)[0]),
    number,
  };
}

// the refusal that the page tells, or null
const refused = () => {
  const { hidden, innerText } = document.querySelector('#notice');
  const told = hidden ? null : /Refusal (\d+), (\w+)\./.exec(innerText);
  return told === null ? null : `refused ${told[1]} ${told[2]}`;
};

// what the finder answered, as lines; the page must be at a roster that is not refused
const finder = () => {
  document.querySelector('#tab-roster').click();
  const lines = window.seen.steps();
  const { kind } = document.querySelector('#answer').dataset;
  const head = document.querySelector('#said h2').innerText;
  if (head !== (kind === 'plan' ? 'There is a plan' : 'There is no plan')) throw new Error(`${kind}: ${head}`);
  document.querySelector('#tab-answer').click();
  if (kind === 'plan') return [...lines, ...window.seen.counted('plan', 'plan')];
  if (kind === 'left') return [...lines, ...window.seen.counted('none left', 'left')];
  return [...lines, `none rivalled ${window.seen.vote('#said p')}`, ...window.seen.counted('candidate', 'candidate'), ...window.seen.counted('rival', 'rival')];
};

export async function answer(tab) {
  await tab.ask(readers);
  const told = await tab.ask(refused);
  return told === null ? tab.ask(finder) : [told];
}

// what the desk holds and answers, as lines
const held = () => {
  document.querySelector('#tab-desk').click();
  if (!document.querySelector('[data-verdict]')) return ['holds no plan'];
  const lines = window.seen.counted('holds', 'held');
  const verdict = /It is (\w+):/.exec(document.querySelector('.verdict').innerText)[1];
  lines.push(verdict === 'strong' ? verdict : `${verdict} ${window.seen.vote('.verdict')}`);
  const blocking = document.querySelector('[data-blocking]');
  const told = /surveyor (\d+) – stand (\d+)(?:, shift (\d))?/.exec(blocking.innerText);
  lines.push(told === null ? 'blocking none' : `blocking ${told[1]} ${told[2]} ${told[3] ?? 1}`);
  return lines;
};

const days = () => {
  document.querySelector('#tab-days').click();
  const rows = [...document.querySelectorAll('[data-sheet=surveyors] tbody tr')];
  const count = document.querySelectorAll('[data-sheet=surveyors] thead th').length - 1;
  const lines = Array.from({ length: count }, (_, day) => {
    const pairs = rows.flatMap((row) => {
      const [stand, shift] = row.querySelectorAll('td')[day].innerText.split('/');
      return stand === '–' ? [] : [`${row.querySelector('th').innerText} ${stand} ${shift ?? 1}`];
    });
    return [`day ${day + 1}: ${pairs.length}`, ...pairs];
  });
  document.querySelector('#tab-desk').click();
  return lines.flat();
};

const proposal = () => {
  if (!document.querySelector('#proposal .votes')) return [];
  const text = document.querySelector('#proposal .votes').innerText;
  const [, first, second] = /vote against the held plan is ([−+]?\d+), the held plan's vote against it ([−+]?\d+)/.exec(text);
  const winner = [
    [/^The proposal beats/, 'first'],
    [/^The held plan beats/, 'second'],
    [/^Each/, 'both'],
    [/^Neither/, 'neither'],
  ].find(([start]) => start.test(text))[1];
  const faced = [...document.querySelectorAll('#proposal [data-facing]')].map((row) => `faced ${row.dataset.facing}`);
  return [...window.seen.counted('proposal', 'proposal'), `votes ${window.seen.number(first)} ${window.seen.number(second)} ${winner}`, ...faced];
};

export async function desk(tab) {
  await tab.ask(readers);
  const lines = await tab.ask(held);
  return lines[0] === 'holds no plan' ? lines : [...lines, ...(await tab.ask(days)), ...(await tab.ask(proposal))];
}

export { refused };
