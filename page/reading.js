// Tokens and types of a contract, as far as marks, mends and pictures want them. What a contract is, the program says.

const TOKEN = new RegExp(
  '([A-Za-z_][A-Za-z_0-9]*)|([0-9]+)|([ \\t\\r\\n]+|//[^\\n]*)'
  + '|(->|=>|::|/\\\\|-o(?![A-Za-z_0-9])|[(){},;:.=+\\-*/%<>|&])|([^])', 'g');
const KINDS = ['word', 'number', 'blank', 'symbol', 'bad'];
const HEADS = ['type', 'fn', 'proc'];

// The tokens of a text, without the blanks and comments between them.
function tokensOf(text) {
  const found = [];
  for (const it of text.matchAll(TOKEN)) {
    const kind = KINDS[it.slice(1).findIndex(part => part !== undefined)];
    if (kind !== 'blank') found.push({ kind, text: it[0], at: it.index, end: it.index + it[0].length });
  }
  return found;
}

// The token that begins at an offset, or an empty one.
function tokenAt(text, at) {
  const found = text.slice(at).match(/^(?:[A-Za-z_][A-Za-z_0-9]*|[0-9]+|[^\s])/);
  return { text: found ? found[0] : '', at, end: at + (found ? found[0].length : 0) };
}

// The definitions of types of a text, each a tree: its sign, and its ways, each with words, as a label, and the type
// behind them. A definition that does not read is left out.
class Types {
  constructor(text) {
    this.tokens = tokensOf(text);
    this.text = text;
    this.defined = new Map();
    for (let at = 0; at + 4 < this.tokens.length; at++) {
      if (this.word(at) === 'type' && this.word(at + 3) === '=') this.define(at);
    }
  }

  define(at) {
    const end = this.tokens.findIndex((it, place) => place > at && it.text === ';');
    const [tree, behind] = this.type(at + 4);
    if (tree && behind === end) this.defined.set(this.word(at + 2), { mode: this.word(at + 1), tree });
  }

  // What a type is: of a name, what stands behind its =.
  unfolded(tree) {
    const found = tree && tree.sign === 'name' ? this.defined.get(tree.name) : null;
    return found ? found.tree : tree;
  }

  // Whether two types are written alike.
  isAlike(one, other) {
    return Boolean(one && other) && this.said(one.at, one.end) === this.said(other.at, other.end);
  }

  // The type that a process offers, or none.
  offered(name) {
    const at = this.tokens.findIndex((it, place) => it.text === 'proc' && this.word(place + 2) === name);
    const end = at < 0 ? -1 : closingOf(this.tokens, at + 3);
    if (end < 0) return null;
    const colon = this.word(end + 1) === '{' ? end + 4 : end + 1;
    return this.word(colon) === ':' ? this.type(colon + 1)[0] : null;
  }

  isShared(tree) {
    return tree.sign === 'up' || tree.sign === 'name' && (this.defined.get(tree.name) || {}).mode === 'S';
  }

  word(at) {
    return at < this.tokens.length ? this.tokens[at].text : '';
  }

  said(at, end) {
    return this.text.slice(this.tokens[at].at, this.tokens[end - 1].end).replace(/\s+/g, ' ');
  }

  // A type that begins at a token, and the token behind it; no type where none stands there.
  type(at) {
    const word = this.word(at);
    if (word === 'up' || word === 'down') return this.prefixed(at, at + 1, word, '');
    if (word === '|' || word === '<') return this.prefixed(at, at + 5, word, `${this.word(at + 2)} gas`);
    if (['int', 'bool', 'list'].includes(word)) return this.valued(at);
    const [first, behind] = this.atom(at);
    const sign = this.word(behind);
    if (!first || (sign !== '*' && sign !== '-o')) return [first, behind];
    return this.prefixed(at, behind + 1, sign, this.said(at, behind), first);
  }

  prefixed(at, start, sign, words, sent = null) {
    const [tree, end] = this.type(start);
    return tree ? [{ sign, ways: [[words, tree]], at, end, sent }, end] : [null, end];
  }

  valued(at) {
    let end = at;
    while (['int', 'bool', 'list'].includes(this.word(end))) end++;
    const sign = this.word(end);
    return sign === '/\\' || sign === '->' ? this.prefixed(at, end + 1, sign, this.said(at, end)) : [null, end];
  }

  atom(at) {
    const it = this.tokens[at];
    if (!it) return [null, at];
    if (it.text === '(') {
      const [tree, end] = this.type(at + 1);
      return [this.word(end) === ')' ? tree : null, end + 1];
    }
    if (it.text === '+' || it.text === '&') return this.choice(at);
    if (it.kind === 'number') return [{ sign: '1', ways: [], at, end: at + 1 }, at + 1];
    return [it.kind === 'word' ? { sign: 'name', name: it.text, ways: [], at, end: at + 1 } : null, at + 1];
  }

  choice(at) {
    const ways = [];
    let end = at + 1;
    while (this.word(end) === '{' || this.word(end) === '|') {
      const [tree, behind] = this.word(end + 2) === ':' ? this.type(end + 3) : [null, end + 1];
      if (!tree) return [null, behind];
      ways.push([this.word(end + 1), tree]);
      end = behind;
    }
    const isWhole = this.word(end) === '}' && ways.length;
    return [isWhole ? { sign: this.word(at), ways, at, end: end + 1 } : null, end + 1];
  }
}

// The number of the ) that belongs to the ( at a token, or -1.
function closingOf(tokens, at) {
  let depth = 0;
  for (let number = at; number < tokens.length; number++) {
    depth += (tokens[number].text === '(') - (tokens[number].text === ')');
    if (depth === 0) return number;
  }
  return -1;
}
