// The instructions of the processes of a contract, each with those that may come behind it.

const FIRSTS = ['type', 'fn', 'proc'];

class Unread extends Error {}

class Codes {
  constructor(text) {
    this.tokens = tokensOf(text);
    this.texts = this.tokens.map(it => it.text);
    this.nodes = [];
    this.processes = new Map();
    this.texts.forEach((it, at) => {
      if (it === 'proc') this.process(at);
    });
  }

  process(at) {
    const end = closingOf(this.tokens, at + 3), [mode, name] = this.texts.slice(at + 1, at + 3);
    const equal = this.texts.indexOf('=', end), parts = { values: [], channels: [] };
    let depth = 0, kind = 'values';
    for (let place = at + 3; place < end; place++) {
      depth += { '(': 1, '{': 1, ')': -1, '}': -1 }[this.texts[place]] || 0;
      if (this.texts[place] === ';' && depth === 1) kind = 'channels';
      else if (depth === 1 && this.texts[place + 1] === ':') parts[kind].push(this.texts[place]);
    }
    this.processes.set(name, { name, mode, ...parts, first: this.code(equal + 1)[0] });
  }

  add(node) {
    this.nodes.push(node);
    return this.nodes.length - 1;
  }

  // The instruction at a token, by its number, and the token behind the code that begins with it.
  code(at) {
    const word = this.texts[at];
    if (word === undefined || FIRSTS.includes(word)) throw new Unread(`no instruction stands at token ${at}`);
    if (word === 'close') return [this.add({ form: word, at, words: [word], ways: [] }), at + 1];
    if (word === 'fwd') return [this.add({ form: word, at, words: this.texts.slice(at, at + 2), ways: [] }), at + 2];
    if (word === 'call') {
      const end = closingOf(this.tokens, at + 2) + 1;
      return [this.add({ form: word, at, words: this.texts.slice(at, end), ways: [] }), end];
    }
    return ['if', 'case', 'match'].includes(word) ? this.parted(at, word) : this.step(at);
  }

  step(at) {
    let depth = 0, end = at;
    while (end < this.texts.length && (depth > 0 || this.texts[end] !== ';')) {
      depth += { '(': 1, '{': 1, ')': -1, '}': -1 }[this.texts[end]] || 0;
      end++;
    }
    const words = this.texts.slice(at, end), isList = words[0] === 'let' && words[3] === 'list';
    const form = words[1] === '.' ? 'label' : isList ? (words[4] === '{' ? 'empty' : 'add') : words[0];
    const number = this.add({ form, at, words, ways: [] });
    const [next, behind] = this.code(end + 1);
    this.nodes[number].ways = [['', next]];
    return [number, behind];
  }

  parted(at, form) {
    const opening = form === 'if' ? this.openingOf(at + 1) : at + 2;
    const number = this.add({ form, at, words: this.texts.slice(at, opening), ways: [] });
    let end = opening;
    if (form === 'if') {
      end = this.way(number, 'true', end + 1);
      return [number, this.way(number, 'false', end + 3) + 1];
    }
    while (this.texts[end] !== '}') {
      const arrow = this.texts.indexOf('=>', end);
      if (arrow < 0) throw new Unread('a branch has no =>');
      const label = this.texts.slice(end + 1, arrow).join(' ');
      end = this.way(number, label, arrow + 1);
    }
    return [number, end + 1];
  }

  way(number, label, at) {
    const [first, end] = this.code(at);
    this.nodes[number].ways.push([label, first]);
    return end;
  }

  // The { behind the condition of an if: one behind a `match` belongs to a term.
  openingOf(at) {
    let depth = 0;
    for (let end = at; end < this.texts.length; end++) {
      if (this.texts[end] === 'match') depth++;
      else if (this.texts[end] === '{' && depth === 0) return end;
      else if (this.texts[end] === '{') end = this.closed(end, depth--);
    }
    throw new Unread('an if has no braces');
  }

  closed(at) {
    let depth = 0;
    for (let end = at; end < this.texts.length; end++) {
      depth += { '{': 1, '}': -1 }[this.texts[end]] || 0;
      if (depth === 0) return end;
    }
    throw new Unread('braces are left open');
  }
}

// The values and the channels of a call: what stands before and behind the ; of its parentheses.
function argumentsOf(words, at) {
  const inside = words.slice(at + 1, -1), parts = { values: [[]], channels: [] };
  let depth = 0, isBehind = false;
  for (const it of inside) {
    depth += { '(': 1, '{': 1, ')': -1, '}': -1 }[it] || 0;
    if (it === ';' && depth === 0) isBehind = true;
    else if (isBehind && it !== ',') parts.channels.push(it);
    else if (!isBehind && it === ',' && depth === 0) parts.values.push([]);
    else if (!isBehind) parts.values[parts.values.length - 1].push(it);
  }
  return { values: parts.values.filter(it => it.length), channels: parts.channels };
}
