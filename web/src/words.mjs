// The words of the page. Those of the rules are held against document 01 sentence by sentence in docs/DECISIONS.md, which has them too; a test compares
// the two.

// what the rules' words mean, in the order in which they are needed
export const TERMS = [
  ['open places', 'A surveyor\'s or a stand\'s open places are its quota, less its fixed pairs, and never more than the pairs that it has left.'],
  [
    'arrows',
    'Each surveyor and each stand sends arrows along its best pairs that are left, one for each open place as far as they go round; a stand sends none ' +
      'along a tied pair.',
  ],
  ['loose, firm', 'A stand is loose if it sends fewer arrows than it has open places and no arrow comes in; else it is firm.'],
  ['reserved', 'Reserved for a surveyor are its pairs along which a firm stand sends an arrow, and all its pairs with loose stands.'],
  ['which pair', 'The first rule that names a pair acts, and on one pair alone: the lowest by surveyor, then by stand, then by shift.'],
];

// each rule: what becomes of the pair, and why
export const RULES = [
  null,
  'Both ends send an arrow along this pair: it is fixed.',
  'At one end arrows come in along at least as many better pairs as that end has open places (with none open, every pair goes): it is struck out.',
  'The surveyor sends an arrow along it, and the arrows that come to the stand and those that it sends are together no more than its open places: it is fixed.',
  'More pairs are reserved for the surveyor than it has open places, and this is the worst of them: it is struck out.',
  'The stand is firm, and neither end sends an arrow along this pair: it is struck out.',
  'Fewer pairs are reserved for the surveyor than it has open places, and this is its best pair that is left: it is fixed.',
  'Fewer arrows come to the stand than it has open places, and this is its best pair that is left and not tied: it is fixed.',
];

export const FATES = { fix: 'fixed', strike: 'struck out' };

// a pair in words; shifts are told where the roster has several
export const pairWords = ([surveyor, stand, shift], shifts) => `surveyor ${surveyor} – stand ${stand}${shifts ? `, shift ${shift}` : ''}`;

export const signed = (vote) => (vote > 0 ? `+${vote}` : vote < 0 ? `−${-vote}` : '0');

export const VERDICTS = {
  strong: 'It is strong: it wins the vote against every other plan that the quotas allow.',
  popular: 'It is popular: against no plan is its vote below zero, but it does not win against every one.',
  beaten: 'It is beaten: there is a plan against which its vote is below zero.',
};

const lowered = (text) => `${text[0].toLowerCase()}${text.slice(1)}`;

// of two plans, the first and the second by these names
export const winnerWords = (winner, first, second) =>
  ({
    first: `${first} beats ${lowered(second)}.`,
    second: `${second} beats ${lowered(first)}.`,
    both: 'Each of the two beats the other.',
    neither: 'Neither of the two beats the other.',
  })[winner];

const ENDINGS = ['th', 'st', 'nd', 'rd'];
export const ordinal = (number) => `${number}${ENDINGS[Math.floor(number / 10) === 1 ? 0 : number % 10] ?? 'th'}`;
