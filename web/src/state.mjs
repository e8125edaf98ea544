// What the page holds, and those who want to know when it changes. The desk is the proved planner's; everything beside it is read from the desk, was
// answered by it, or says what is looked at.

export const page = {
  crew: null, // the proved calls
  desk: null, // roster, plan and proposal
  title: '', // what the roster is called
  roster: null, // the held roster, read for the picture
  found: null, // what the finder answered
  fresh: false, // it has just been opened, and is not drawn yet
  notice: null, // the last refusal, or what could not be read
  view: 'roster',
  step: 0, // how many steps of the diary are shown
  chosen: null, // the side and number whose pairs are shown alone
  draft: new Set(), // the pairs of the plan that is being made
  change: null, // what the last change of the roster changed
  undo: null, // the desk's bytes before it
  told: [], // what happened, in order
  text: '', // the text that is being written
};

const listeners = [];
export const listen = (listener) => listeners.push(listener);
export const tell = () => listeners.forEach((listener) => listener());

export const nodesOf = (side) => (side === 0 ? page.roster.surveyors : page.roster.stands);
export const hasShifts = () => page.roster !== null && page.roster.surveyors.some(({ strict }) => strict.some(([, shift]) => shift > 1));
