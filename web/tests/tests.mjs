// The tests of the page in a browser: each is a name and what it does, which throws where something is wrong, and may tell something to be said with the name.
import { badFiles, everySample, falsifiedSeen, firstAnswer, session, written } from './answers.mjs';
import { alone, ending, facing, rulesOnPaper, steps } from './drawn.mjs';
import { accessible, contrasts, keyboard, layouts, printed } from './everyone.mjs';
import { kept, noNetwork, nothingKept, saved, takenBack } from './kept.mjs';

export const tests = [
  ['every sample as the program prints it', everySample],
  ['a page with wrong answers is seen', falsifiedSeen],
  ["a session at the desk as the wrapper's", session],
  ['the first answer in less than 50 ms', firstAnswer],
  ['files that are refused, with number and place', badFiles],
  ['a roster that is written', written],
  ['the steps one by one', steps],
  ['the picture behind the last step', ending],
  ["the rules' words as in docs/DECISIONS.md", rulesOnPaper],
  ['a number alone', alone],
  ['who faced whom adds up to the vote', facing],
  ['files that are saved', saved],
  ['kept over a reload, offline', kept],
  ['a change taken back', takenBack],
  ['nothing kept, and said so', nothingKept],
  ['no network', noNetwork],
  ['by keyboard alone', keyboard],
  ['text contrast', contrasts],
  ['names for all that can be pressed', accessible],
  ['on a tablet and at a desk', layouts],
  ['on paper', printed],
];
