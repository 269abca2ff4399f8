// Mends, from the data that ./explain reads too: what may be written where something is wrong, each tried on the
// program before it is offered. Of the causes that are met most: a channel that is left over or not at its turn, a
// wrong label, a word that is none, and gas that is too small.

const MOST_MENDS = 3, MOST_MILLISECONDS = 20000, LONGEST_TRIED = 65536;

function filled(template, known) {
  return template.replace(/\$(\w+)/g, (all, name) => (known[name] === undefined ? all : known[name]));
}

// A text with edits, each from where to where, and what is new there.
function edited(text, edits) {
  const ordered = [...edits].sort((a, b) => b[0] - a[0]);
  return ordered.reduce((all, [at, end, put]) => all.slice(0, at) + put + all.slice(end), text);
}

// How many letters are to be put in, taken out, changed, or changed with the next one.
function distance(one, other) {
  const rows = [[...Array(other.length + 1).keys()]];
  for (let i = 1; i <= one.length; i++) {
    rows.push([i]);
    for (let j = 1; j <= other.length; j++) {
      const changed = rows[i - 1][j - 1] + (one[i - 1] === other[j - 1] ? 0 : 1);
      let least = Math.min(rows[i - 1][j] + 1, rows[i][j - 1] + 1, changed);
      const isTurned = i > 1 && j > 1 && one[i - 1] === other[j - 2] && one[i - 2] === other[j - 1];
      if (isTurned) least = Math.min(least, rows[i - 2][j - 2] + 1);
      rows[i].push(least);
    }
  }
  return rows[one.length][other.length];
}

function isNear(one, other) {
  if (one.toLowerCase() === other.toLowerCase()) return one !== other;
  const least = Math.min(one.length, other.length), far = distance(one, other);
  return far > 0 && far <= (least < 2 ? 0 : least < 5 ? 1 : 2);
}

function nearest(word, known) {
  const near = [...new Set(known)].filter(it => isNear(word, it));
  return near.sort((a, b) => distance(word, a) - distance(word, b) || (a < b ? -1 : 1));
}

function isReserved(word) {
  return WORDS.includes(word);
}

function labelsOf(tokens) {
  const found = tokens.filter((it, at) => it.kind === 'word' && at > 0 && ['{', '|'].includes(tokens[at - 1].text)
    && tokens[at + 1] && tokens[at + 1].text === ':');
  return [...new Set(found.map(it => it.text))];
}

function unusedName(tokens) {
  const taken = new Set(tokens.map(it => it.text));
  for (let number = 0; ; number++) if (!taken.has(`n${number}`)) return `n${number}`;
}

// The mends of a contract that is refused at a place.
class Mender {
  constructor(program, text, answer) {
    this.program = program;
    this.text = text;
    this.answer = answer;
    this.at = answer.offset;
    this.types = new Types(text);
    this.tokens = this.types.tokens;
    this.index = this.tokens.findIndex(it => it.at === this.at);
    const heads = this.tokens.flatMap((it, at) => (HEADS.includes(it.text) && at <= this.index ? [at] : []));
    this.head = heads.length ? heads[heads.length - 1] : 0;
    this.until = performance.now() + MOST_MILLISECONDS;
  }

  isOver() {
    return performance.now() > this.until;
  }

  check(edits) {
    return this.program.check(edited(this.text, edits));
  }

  // Up to which offset the program is content with the instructions behind an edit, or -1 where the edit does not do.
  async reach(edit) {
    const after = await this.check([edit]);
    if (after.isAccepted || after.isCause('NoPotential') || after.words[0] === 'unsolved') return Infinity;
    if (!after.isCause('ProcType') && !after.isCause('TermType')) return -1;
    const [start, end, put] = edit;
    if (start === this.at && after.offset < start + put.length) return -1;
    return after.offset - (start < after.offset ? put.length - (end - start) : 0);
  }

  now() {
    return nowAt(this.types, this.head, this.index, this.answer.words[3]);
  }

  async find() {
    if (this.text.length > LONGEST_TRIED) return [];
    if (this.answer.isCause('ProcType')) return this.ofInstruction();
    if (this.answer.isCause('Name')) return this.ofName();
    if (this.answer.isCause('Syntax')) return this.ofWord();
    if (this.answer.isCause('NoPotential')) return this.ofGas();
    return [];
  }

  async ofInstruction() {
    const found = [];
    if (this.answer.words[3] === 'label') await this.ofLabel(found);
    if (!found.length) await this.putBefore(found);
    const furthest = Math.max(...found.map(it => it.reached));
    const best = found.filter(it => it.reached === furthest);
    best.sort((a, b) => a.loses - b.loses);
    return best.slice(0, MOST_MENDS);
  }

  labels(near) {
    const known = labelsOf(this.tokens);
    return (near ? known.sort((a, b) => distance(a, near) - distance(b, near)) : known).slice(0, MENDS.labels);
  }

  async ofLabel(found) {
    const token = this.tokens[this.index + 2];
    for (const it of this.labels(token.text).filter(other => other !== token.text)) {
      const edit = [token.at, token.end, it], reached = await this.reach(edit);
      const says = filled(MENDS.says.instead, { new: it, old: token.text });
      if (reached > this.at) found.push({ says, edits: [edit], reached, loses: 0 });
    }
  }

  // Instructions on one channel, put before the stuck one: one, two or three of them.
  async putBefore(found) {
    const held = new Held(this.types, this.head).upTo(this.index);
    await this.keeping(held, found);
    let waiting = [...held.keys()].reverse().map(name => ({ name, held, first: held, code: '' }));
    const kept = found.length;
    for (let depth = 0; depth < MENDS.deep && waiting.length && found.length === kept; depth++) {
      const further = [];
      for (const it of waiting) {
        await this.putMore(it, depth, found, further);
        if (found.length >= MOST_MENDS || this.isOver()) return;
      }
      waiting = further;
    }
  }

  async putMore(it, depth, found, further) {
    for (const { code, goesOn } of this.instructions(it, depth)) {
      const put = `${it.code}${code} `, edit = [this.at, this.at, put];
      const reached = await this.reach(edit);
      const held = stepped(this.types, it.held, tokensOf(code).map(token => token.text));
      if (reached > this.at) {
        const lost = isLost(this.types, it.name, it.first, held) ? filled(MENDS.says.lost, { channel: it.name }) : '';
        const says = filled(MENDS.says.before, { code: put.trim() }) + lost;
        found.push({ says, edits: [edit], reached, loses: lost ? 1 : 0 });
      } else if (reached === this.at && goesOn) {
        further.push({ name: it.name, held, first: it.first, code: put });
      }
      if (this.isOver()) return;
    }
  }

  // Where something is left over behind the last instruction, what sends it to somebody.
  async keeping(held, found) {
    if (!['close', 'call', 'fwd'].includes(this.answer.words[3])) return;
    const fresh = unusedName(this.tokens), before = this.tokens[this.index - 2];
    const isDetached = before && before.text === 'detach', at = isDetached ? before.at : this.at;
    for (const { asset, code } of gifts(this.types, held, fresh)) {
      const edit = [at, at, `${code} `], reached = await this.reach(edit);
      const says = filled(MENDS.says.gets, { code, place: isDetached ? '`detach`' : 'it', channel: asset });
      if (reached > this.at) found.push({ says, edits: [edit], reached, loses: 0 });
      if (found.length >= MOST_MENDS || this.isOver()) return;
    }
  }

  // What may be written on a channel at its type, from the rows of the data.
  * instructions({ name, held }, depth) {
    const tree = this.types.unfolded(held.get(name).tree);
    const fresh = unusedName(this.tokens) + 'x'.repeat(depth);
    const isSent = PROVIDED.includes(tree.sign) === (name === 'self');
    for (const row of MENDS.before.filter(it => it.at === tree.sign && it.sent === isSent)) {
      for (const more of this.fillings(row.write, name, tree, held)) {
        const code = filled(row.write, { channel: name, new: fresh, amount: MENDS.amount, ...more });
        yield { code, goesOn: row.goes_on };
      }
    }
  }

  fillings(write, name, tree, held) {
    if (write.includes('$label')) return tree.ways.map(([label]) => ({ label }));
    const others = [...held.keys()].filter(it => it !== name && it !== 'self');
    if (write.includes('$other')) return others.map(other => ({ other }));
    if (write.includes('$value')) return (MENDS.values[tree.ways[0][0]] || []).map(value => ({ value }));
    return [{}];
  }

  async ofName() {
    const token = this.tokens[this.index];
    const known = this.tokens.filter(it => it.kind === 'word' && !isReserved(it.text)).map(it => it.text);
    for (const name of nearest(token.text, known)) {
      const edit = [token.at, token.end, name], after = await this.check([edit]);
      if (!after.isCause('Name') || after.offset > this.at) {
        return [{ says: filled(MENDS.says.near, { name }), edits: [edit] }];
      }
    }
    return [];
  }

  // A reserved word that is not spelt like any, at the place or just before.
  async ofWord() {
    const index = this.index < 0 ? this.tokens.length : this.index;
    const near = [index, index - 1, index - 2].map(at => this.tokens[at]);
    for (const token of near.filter(it => it && it.kind === 'word')) {
      for (const word of nearest(token.text, WORDS)) {
        const edit = [token.at, token.end, word], after = await this.check([edit]);
        if (!after.isCause('Syntax') || after.offset > this.at + word.length) {
          return [{ says: filled(MENDS.says.instead, { new: word, old: token.text }), edits: [edit] }];
        }
      }
    }
    return [];
  }

  // Amounts that are too small: one of them is left open, and then all; what the program finds for it is written.
  async ofGas() {
    const amounts = amountsOf(this.tokens);
    const found = [];
    for (const kinds of [['bound'], ['pay', 'get'], ['head', 'type']]) {
      for (const it of amounts.filter(other => kinds.includes(other.kind))) {
        const more = await this.openedOnly([it], amounts);
        if (more) found.push(this.amountMend(more));
        if (found.length >= MOST_MENDS || this.isOver()) return found;
      }
      if (found.length) return found;
    }
    const bounds = amounts.filter(it => ['bound', 'head', 'pay', 'get'].includes(it.kind));
    const more = await this.openedOnly(bounds, amounts);
    return more ? [this.amountMend(more)] : [];
  }

  // The amounts that have to be others, with what the program finds for them where they are left open.
  async openedOnly(opened, amounts) {
    const open = opened.map(it => [it.at, it.end, it.isMissing ? ` {${MENDS.amount}}` : MENDS.amount]);
    const answer = await this.program.least(edited(this.text, open));
    const stars = answer.lines.filter(it => it[0] === 'star').map(it => it[3]);
    if (!answer.isAccepted || stars.some(it => it.includes('/'))) return null;
    const written = amounts.filter(it => it.isOpen || opened.includes(it)).sort((a, b) => a.at - b.at);
    const changed = opened.map(it => ({ ...it, more: stars[written.indexOf(it)] })).filter(it => it.more !== it.value);
    const edits = changed.map(it => [it.at, it.end, it.isMissing ? ` {${it.more}}` : it.more]);
    return changed.length && (await this.check(edits)).isAccepted ? { changed, edits } : null;
  }

  amountMend({ changed, edits }) {
    const wordsOf = it => MENDS.says[it.isMissing ? 'missing' : 'small'];
    const says = changed.map(it => filled(wordsOf(it), { amount: it.value, more: it.more }));
    const places = changed.map(it => placeOf(this.text, it.at));
    const told = says.map((it, at) => (says.length > 1 ? `${places[at]}: ${it}` : it));
    return { says: told.join('; '), edits, at: changed[0].at };
  }
}

// Line and column of an offset, as LINE:COLUMN, both from 1.
function placeOf(text, at) {
  const before = text.slice(0, at).split('\n');
  return `${before.length}:${before[before.length - 1].length + 1}`;
}

// The amounts of a text: what each is an amount of, from where to where it stands, and its value.
function amountsOf(tokens) {
  const found = [], heads = new Map();
  tokens.forEach((it, at) => {
    if (it.text === 'proc') heads.set(closingOf(tokens, at + 3), tokens[at + 1].text === 'T' ? 'bound' : 'head');
    if (heads.has(at) && tokens[at + 1].text !== '{') {
      found.push({ kind: heads.get(at), at: it.end, end: it.end, value: '0', isMissing: true });
    }
    if (it.text !== '{' || !tokens[at + 2] || tokens[at + 2].text !== '}') return;
    const { text: value, kind: ofToken, at: start, end } = tokens[at + 1], isOpen = value === '*';
    const kind = heads.get(at - 1) || kindOf(tokens, at);
    if (isOpen || ofToken === 'number') found.push({ kind, at: start, end, value, isOpen });
  });
  return found.map(it => (it.isOpen ? { ...it, kind: 'open' } : it));
}

function kindOf(tokens, at) {
  const [via, before] = [2, 1].map(back => (tokens[at - back] ? tokens[at - back].text : ''));
  if (before === 'work' || before === 'list') return before;
  return before === '|' || before === '<' ? 'type' : via;
}

// How many whole units one amount is more than another: of parts, as 3/2, there are as many to a unit as the / says.
function unitsOf(most, least) {
  const [[high, parts = 1n], [low]] = [most, least].map(it => it.split('/').map(BigInt));
  return (high - low + parts - 1n) / parts;
}

// A deposit before a line of a script that its account has too little gas for.
async function depositMend(ask, script, words, contract) {
  const number = Number(words[1]), name = words[6];
  const bound = contract.find(it => it[0] === 'bound' && lineAt(script, Number(words[4])).text.includes(` ${it[1]}(`));
  const needs = words[5] === 'NoGas' ? unitsOf(words[10], words[8]) : unitsOf(bound ? bound[3] : '0', '0');
  const at = lineAt(script, number).at, put = `deposit ${name} ${needs}\n`;
  const place = words[1] === words[4] ? 'it' : 'the `begin`';
  const after = await ask(edited(script, [[at, at, put]]));
  const isSame = it => Number(it[1]) === number + 1 && it[2] === 'refused' && it[5] === words[5];
  const refused = after.entries.some(([it]) => isSame(it));
  if (![0, 3].includes(after.status) || refused) return [];
  return [{ says: filled(MENDS.says.deposit, { account: name, units: String(needs), place }), edits: [[at, at, put]] }];
}
