// What a process holds where an instruction stands: its channels, each with the type that the talk on it has come to.
// It says which mends are tried, and what is shown as held; whether an instruction may stand there, the program says.

const PROVIDED = ['+', '*', '/\\', '|', '1', 'up', 'down'];
const TALKED = ['send', 'recv', 'put', 'take', 'pay', 'get'];

// A channel at a type, and the type that it was bound at.
function boundAt(tree) {
  return { tree, first: tree };
}

// The type behind what is said on a channel: of a choice that behind its label.
function behind(types, tree, label) {
  const whole = types.unfolded(tree);
  const way = whole.ways.length > 1 || whole.sign === '+' || whole.sign === '&'
    ? whole.ways.find(([it]) => it === label) : whole.ways[0];
  return way ? way[1] : null;
}

// The channels behind one instruction, which is given by the texts of its tokens. What is not known is left out.
function stepped(types, before, words) {
  const held = new Map(before), [first, second, third, fourth] = words;
  const put = (name, tree) => {
    if (tree) held.set(name, { ...(held.get(name) || boundAt(tree)), tree });
    else held.delete(name);
  };
  const at = name => (held.get(name) || {}).tree;
  const go = (name, label) => at(name) && put(name, behind(types, at(name), label));
  if (second === '.') go(first, third);
  if (first === 'accept' || first === 'detach') go('self');
  if (first === 'wait') held.delete(second);
  if (first === 'recv' && at(second)) put(third, types.unfolded(at(second)).sent);
  if (first === 'send') pass(types, held, [third]);
  if (TALKED.includes(first)) go(second);
  if (first === 'acquire' || first === 'release') {
    if (at(second)) put(fourth, behind(types, at(second)));
    if (first === 'release') held.delete(second);
  }
  if (first === 'spawn') {
    pass(types, held, words.slice(words.lastIndexOf(';') + 1));
    put(second, types.offered(fourth));
  }
  return held;
}

// Takes the channels that are passed on out of what is held, but for shared contracts.
function pass(types, held, names) {
  for (const name of names) if (held.has(name) && !types.isShared(held.get(name).tree)) held.delete(name);
}

// Whether a channel comes to its end by an instruction, and was not brought there by the process before.
function isLost(types, name, before, after) {
  const it = before.get(name), left = after.get(name);
  if (name === 'self' || types.isShared(it.tree) || left && types.unfolded(left.tree).sign !== '1') return false;
  return !(types.unfolded(it.tree).sign === '1' && it.tree !== it.first);
}

// The instructions by which a talk at a type takes a channel, at most so many, each with the sign behind them.
function * talks(types, asset, name, tree, deep) {
  const whole = types.unfolded(tree), isSelf = name === 'self', [[words, next] = []] = whole.ways;
  if (deep === 0) return;
  if (whole.sign === (isSelf ? '*' : '-o') && types.isAlike(whole.sent, asset.tree)) {
    yield { code: `send ${name} ${asset.name};`, sign: types.unfolded(next).sign };
  } else if (whole.sign === (isSelf ? '+' : '&')) {
    for (const [label, more] of whole.ways) {
      for (const it of talks(types, asset, name, more, deep - 1)) yield { ...it, code: `${name}.${label}; ${it.code}` };
    }
  } else if (words && (whole.sign === '<' || whole.sign === '|')) {
    const word = (whole.sign === '|') === isSelf ? 'pay' : 'get';
    for (const it of talks(types, asset, name, next, deep - 1)) {
      yield { ...it, code: `${word} ${name} {*}; ${it.code}` };
    }
  }
}

const DEEP_TALK = 4;

// The instructions that send what is held to somebody: over another channel, or to a contract that is acquired for it.
function * gifts(types, held, fresh) {
  const assets = [...held].filter(([name, it]) => name !== 'self' && !types.isShared(it.tree));
  for (const [name, it] of assets) {
    const asset = { name, tree: it.tree };
    for (const [other, { tree }] of [...held].filter(([via]) => via !== name)) {
      const isShared = types.isShared(tree), at = isShared ? behind(types, tree) : tree;
      for (const talk of talks(types, asset, isShared ? fresh : other, at, DEEP_TALK)) {
        if (!isShared) yield { asset: name, code: talk.code };
        if (!isShared || talk.sign !== 'down') continue;
        yield { asset: name, code: `acquire ${other} as ${fresh}; ${talk.code} release ${fresh} as ${fresh}x;` };
      }
    }
  }
}

class Held {
  constructor(types, head) {
    this.types = types;
    this.texts = types.tokens.map(it => it.text);
    this.head = head;
    this.ways = [];
  }

  start() {
    const held = new Map(), { types, texts } = this, end = texts.indexOf('=', this.head);
    const offered = types.offered(texts[this.head + 2]);
    if (offered) held.set('self', boundAt(offered));
    let depth = 0, isBehind = false;
    for (let at = this.head; at < end; at++) {
      depth += { '(': 1, '{': 1, ')': -1, '}': -1 }[texts[at]] || 0;
      if (texts[at] === ';' && depth === 1) isBehind = true;
      const [tree] = isBehind && depth === 1 && texts[at + 1] === ':' ? types.type(at + 2) : [null];
      if (tree) held.set(texts[at], boundAt(tree));
    }
    return held;
  }

  // What is held before the instruction at a token, on the way that leads there.
  upTo(index) {
    let held = this.start(), at = this.texts.indexOf('=', this.head) + 1, via = null;
    while (at < index) {
      const word = this.texts[at], isAmount = word === '{' && this.texts[at + 2] === '}';
      if (word === 'case') via = this.texts[at + 1];
      if (word === '{' && !isAmount) {
        this.ways.push({ held, via });
        held = this.branch(at);
        via = null;
      } else if (word === '|' && this.ways.length) {
        held = this.branch(at);
      } else if (word === '}') {
        held = (this.ways.pop() || { held }).held;
      } else {
        held = this.step(at, held);
      }
      at += isAmount ? 3 : 1;
    }
    return held;
  }

  // What is held at the start of a branch: at a label of a case, the channel is at what stands behind that.
  branch(at) {
    const { held, via } = this.ways[this.ways.length - 1], it = via && held.get(via);
    const tree = it && behind(this.types, it.tree, this.texts[at + 1]);
    return tree ? new Map(held).set(via, { ...it, tree }) : held;
  }

  step(at, held) {
    const { texts } = this, isLabel = texts[at] === '.';
    const start = isLabel ? at - 1 : at;
    if (!isLabel && !STEPS.includes(texts[at])) return held;
    const words = texts.slice(start, start + 4);
    if (words[0] !== 'spawn') return stepped(this.types, held, words);
    const end = closingOf(this.types.tokens, start + 4);
    return stepped(this.types, held, texts.slice(start, end).filter(it => it !== ','));
  }
}

// What is said of the channels at a stuck instruction: of the one that it is on, or else of all that is held.
function nowAt(types, head, index, form) {
  const held = new Held(types, head).upTo(index), words = types.tokens.slice(index, index + 2).map(it => it.text);
  const via = form === 'label' ? words[0] : words[1];
  const isTalk = ['label', 'case', 'wait', ...SHARED, ...TALKED].includes(form);
  const all = [...held].filter(([name, it]) => (isTalk ? name === via : name === 'self' || !types.isShared(it.tree)));
  return all.map(([name, { tree }]) => {
    const whole = types.unfolded(tree), said = it => types.said(it.at, it.end);
    const more = whole === tree ? '' : `, which is \`${said(whole)}\``;
    return `\`${name}\` is ${isTalk || name === 'self' ? '' : 'held, '}at \`${said(tree)}\`${more}`;
  });
}

const SHARED = ['acquire', 'release'];
const STEPS = [...TALKED, 'accept', 'detach', 'wait', 'acquire', 'release', 'spawn'];
