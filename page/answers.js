// What an answer of the program says: the lines of a report, and what is wrong, with its place, its cause and the
// sentence of docs/CAUSES.md.

class Answer {
  constructor({ status, out, journal, fault }) {
    this.status = status;
    this.out = out;
    this.journal = journal;
    this.fault = fault;
    this.lines = out.split('\n').slice(0, -1).map(it => it.split(' '));
    this.words = this.lines[0] || [];
  }

  get isAccepted() {
    return this.status === 0;
  }

  isCause(cause) {
    return this.words[0] === 'refused' && this.words[1] === cause;
  }

  // The offset that the first line names, or null.
  get offset() {
    const word = this.words[this.words[1] === 'Limit' ? 3 : 2];
    return this.words[0] === 'refused' && /^\d+$/.test(word || '') ? Number(word) : null;
  }

  // The cause of a refusal, with the limit or the form of the instruction that it names.
  get cause() {
    if (this.words[0] === 'unsolved') return this.words.slice(0, 2).join(' ');
    const further = { Limit: 2, ProcType: 3 }[this.words[1]];
    return [this.words[1], ...(further ? [this.words[further]] : [])].join(' ');
  }

  // The lines that a report has for each line of a script, each with the lines behind it.
  get entries() {
    const found = [];
    for (const it of this.lines) {
      if (it[0] === 'line') found.push([it]);
      else if (found.length) found[found.length - 1].push(it);
    }
    return found;
  }
}

// What is wrong at a place of a pane: from where to where, the cause, its row, and the line that says it.
function foundAt(pane, at, end, cause, row, answer) {
  const [means, rule, page] = CAUSES[row] || CAUSES[row.split(' ')[0]] || ['', '', ''];
  return { pane, at, end, cause, means, rule, page, answer, mends: [], now: [] };
}

function rowOf(answer, text, at) {
  if (answer.cause === 'Syntax' && at === text.length) return 'Syntax end';
  if (answer.cause === 'Name' && tokenAt(text, at).text === 'me') return 'Name me';
  return answer.cause;
}

// Of an amount that is too small, the place and the sentence are those of the amount.
function ofAmount(found) {
  found.at = found.mends[0].at;
  found.end = found.at + 1;
  [found.means, found.rule, found.page] = CAUSES['NoPotential amount'];
}

const MOST_BYTES = 1048576;

function ofContract(answer, text) {
  if (![1, 8].includes(answer.status)) return [];
  const tokens = tokensOf(text);
  const first = tokens.length ? tokens[0].at : 0;
  const at = answer.cause === 'TooLong' ? MOST_BYTES : answer.offset === null ? first : answer.offset;
  const token = tokenAt(text, at);
  return [foundAt('contract', at, token.end, answer.cause, rowOf(answer, text, at), answer.words.join(' '))];
}

// Where a line of a text begins and ends; lines are counted from 1.
function lineAt(text, number) {
  const lines = text.split('\n');
  const at = lines.slice(0, number - 1).reduce((sum, it) => sum + it.length + 1, 0);
  return { at, end: at + (lines[number - 1] || '').length, text: lines[number - 1] || '' };
}

// The place in a line of a script that a cause is about: the word that it names, or else the first one.
function placeIn(text, number, word) {
  const line = lineAt(text, number);
  const tokens = tokensOf(line.text).map(it => ({ at: it.at + line.at, end: it.end + line.at, text: it.text }));
  return tokens.slice(1).find(it => it.text === word) || tokens[0] || line;
}

function ofEntry([words], script) {
  const answer = words.join(' ');
  const number = Number(words[2] === 'refused' ? words[4] : words[1]);
  const [kind, cause] = { refused: ['', words[5]], aborted: ['aborted ', words[4]] }[words[2]] || [words[2], ''];
  const row = `${kind}${cause}`;
  if (['deposited', 'committed', 'show'].includes(words[2])) return [];
  const place = placeIn(script, number, words[2] === 'refused' ? words[6] : '');
  return [foundAt('script', place.at, place.end, row, row, answer)];
}

function ofScript(answer, script) {
  if (answer.status === 3) return answer.entries.flatMap(it => ofEntry(it, script));
  if (answer.status !== 2) return [];
  const place = answer.words[3] ? placeIn(script, Number(answer.words[3]), '') : { at: MOST_BYTES, end: MOST_BYTES };
  const cause = `script ${answer.words[2]}`;
  return [foundAt('script', place.at, place.end, cause, cause, answer.words.join(' '))];
}

const WANT = 'Memory ran out: a call may take 2 GB here, and this one wants more. Nothing was written.';
const DEEP = 'The call stood too deep for this browser, and was ended.';

// Says in a sentence how a call ended.
function endOf(answer, word) {
  if (answer.status === null) {
    const isDeep = /stack|call/i.test(answer.fault) && !/memory access/.test(answer.fault);
    return isDeep ? DEEP : `The machine of this browser ended the call: ${answer.fault}.`;
  }
  const accepted = word === 'run' ? 'Accepted, and each line was carried out.' : 'The contract is accepted.';
  return {
    0: accepted,
    1: 'The contract is refused.',
    2: 'The contract is accepted, and the script is refused.',
    3: 'The contract is accepted, and some line of the script was not carried out.',
    4: 'The options have another form.',
    7: WANT,
    8: 'The search for amounts stopped, and nothing is said of the contract.',
  }[answer.status] || 'The call failed.';
}
