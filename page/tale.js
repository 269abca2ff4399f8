// Who said what: the journal tells which process fires and by which instruction, and the text which one that is. Where
// a condition leaves two ways open, a way is taken that goes together with all that the journal tells of the batch.

const MOST_FIRINGS = 3000, MOST_WAYS = 400;
const SENDING = ['label', 'send', 'put', 'pay'], HEARING = ['case', 'recv', 'take', 'get', 'wait'];

class Lost extends Error {}

// What a call is told of the values that stand in it: what is known of them, or else their text.
function valueOf(process, words) {
  const [only] = words;
  if (words.length === 1 && process.values.has(only)) return process.values.get(only);
  return words.join(' ');
}

class Tale {
  constructor(contract, script, journal) {
    this.codes = new Codes(contract);
    this.script = script;
    this.state = { next: 1, processes: new Map(), contracts: new Map(), names: new Map(), counts: new Map() };
    this.batches = [];
    for (const it of entriesOf(journal)) this.entry(it);
  }

  // Follows one batch; one that was undone leaves all as it was.
  entry({ line, firings, end }) {
    const batch = { line, end, steps: [], isLost: false, names: new Map() };
    this.batches.push(batch);
    const rows = rowsAt(this.script, line);
    if (!rows.length || end.startsWith('refused')) return;
    const before = structuredClone(this.state);
    try {
      if (this.isLost || firings.length > MOST_FIRINGS) throw new Lost('not followed');
      batch.steps = this.followed(rows, firings, before);
    } catch (error) {
      if (!(error instanceof Lost)) throw error;
      batch.isLost = true;
      this.isLost = this.isLost || end.startsWith('committed');
    }
    batch.names = new Map(this.state.names);
    if (!end.startsWith('committed')) this.state = before;
  }

  // Tries one way after another at the conditions, the last ones first.
  followed(rows, firings, before) {
    let ways = [];
    for (let tried = 0; tried < MOST_WAYS; tried++) {
      this.state = structuredClone(before);
      const walk = new Walk(this.codes, this.state, ways);
      try {
        for (const it of rows) walk.start(it);
        for (const it of firings) walk.fire(it);
        return walk.steps;
      } catch (error) {
        if (!(error instanceof Lost)) throw error;
      }
      ways = walk.ways.slice(0, walk.used);
      while (ways.length && ways[ways.length - 1] === 1) ways.pop();
      if (!ways.length) break;
      ways[ways.length - 1] = 1;
    }
    throw new Lost('no way goes together with the journal');
  }
}

function entriesOf(journal) {
  const found = [];
  for (const it of journal.split('\n').slice(2)) {
    const words = it.split(' ');
    if (words[0] === 'line') found.push({ line: Number(words[1]), firings: [], end: '' });
    else if (words[0] === 'end') found[found.length - 1].end = words.slice(1).join(' ');
    else if (it) found[found.length - 1].firings.push({ pid: Number(words[0]), form: words[1], gas: words[2] });
  }
  return found;
}

// The lines of a batch that start something, each with its words.
function rowsAt(script, number) {
  const lines = script.split('\n').map(it => tokensOf(it).map(token => token.text));
  const first = lines[number - 1];
  if (first[0] !== 'begin') return ['let', 'exec'].includes(first[0]) ? [first] : [];
  const end = lines.findIndex((it, at) => at >= number && it[0] === 'end');
  return lines.slice(number, end).filter(it => ['let', 'exec'].includes(it[0]));
}

class Walk {
  constructor(codes, state, ways) {
    Object.assign(this, { codes, state, ways: [...ways], used: 0, steps: [] });
  }

  // A line of the script starts a process, whose name in the chart is that of the contract or of the transaction.
  start(words) {
    const isContract = words[0] === 'let', at = words.indexOf('('), process = this.codes.processes.get(words[at - 1]);
    if (!process) throw new Lost('no such process');
    const { values, channels } = argumentsOf(words, at), pid = this.state.next++;
    const ends = channels.map(it => ({ contract: this.state.contracts.get(it) }));
    const name = isContract ? words[1] : `${words[at - 1]} (${words[1]})`;
    this.make(pid, process, values.map(it => it.join('')), ends, name);
    if (isContract) this.state.contracts.set(words[1], pid);
    this.steps.push({ kind: 'note', pid, text: 'starts' });
  }

  make(pid, process, values, ends, name) {
    this.state.names.set(pid, name);
    this.state.processes.set(pid, {
      pid, mode: process.mode, node: process.first, self: null,
      values: new Map(process.values.map((it, at) => [it, values[at]])),
      ends: new Map(process.channels.map((it, at) => [it, ends[at]])),
    });
  }

  fire({ pid, form, gas }) {
    const it = this.state.processes.get(pid), node = it && this.codes.nodes[it.node];
    if (!node) throw new Lost('no such process');
    const at = this.codes.tokens[node.at];
    if (form === 'work') this.steps.push({ kind: 'note', pid, at, text: `work ${gas}` });
    if (form === 'work' && node.form !== 'work') return;
    if (node.form !== form) throw new Lost(`${form} fires at ${node.form}`);
    const { words } = node, go = () => { it.node = node.ways[0][1]; };
    if (SENDING.includes(form)) this.send(it, node, at);
    else if (HEARING.includes(form)) this.hear(it, node);
    else if (form === 'acquire' || form === 'release') this.share(it, words, at);
    else if (form === 'spawn') this.spawn(it, words, at);
    else if (form === 'call') this.call(it, words);
    else if (form === 'close') this.close(it, at);
    else if (form === 'fwd') this.forward(it, words, at);
    else if (form === 'if' || form === 'match') it.node = node.ways[this.way()][1];
    else if (form === 'emit') this.steps.push({ kind: 'note', pid, at, text: `result ${valueOf(it, words.slice(1))}` });
    if (form === 'let') it.values.set(words[1], valueOf(it, words.slice(3)));
    if (!['case', 'call', 'close', 'fwd', 'if', 'match'].includes(form)) go();
  }

  way() {
    if (this.used === this.ways.length) this.ways.push(0);
    return this.ways[this.used++];
  }

  end(it, name) {
    let end = name === 'self' ? it.self : it.ends.get(name);
    while (end && end.to) end = end.to;
    if (!end) throw new Lost(`nothing is known of ${name}`);
    return end;
  }

  send(it, { form, words }, at) {
    const end = this.end(it, form === 'label' ? words[0] : words[1]), said = { from: it.pid, at, form };
    if (form === 'label') Object.assign(said, { text: words[2], label: words[2] });
    if (form === 'put') said.text = said.value = valueOf(it, words.slice(2));
    if (form === 'pay') said.text = `${words[3]} gas`;
    if (form === 'send') {
      Object.assign(said, { text: words[2], end: it.ends.get(words[2]) });
      if (!said.end) throw new Lost('nothing is known of what is sent');
      if (said.end.contract === undefined) it.ends.delete(words[2]);
    }
    end.queue.push(said);
    this.state.next++;
  }

  hear(it, node) {
    const name = node.words[1], said = this.end(it, name).queue.shift();
    const wanted = { case: 'label', recv: 'send', take: 'put', get: 'pay', wait: 'close' }[node.form];
    if (!said || said.form !== wanted || said.from === it.pid) throw new Lost('nothing is there to be heard');
    this.steps.push({ kind: 'says', pid: said.from, other: it.pid, at: said.at, text: said.text });
    if (node.form === 'take') it.values.set(node.words[2], said.value);
    if (node.form === 'recv') it.ends.set(node.words[2], said.end);
    if (node.form === 'wait') it.ends.delete(name);
    if (node.form !== 'case') return;
    const way = node.ways.find(([label]) => label === said.label);
    if (!way) throw new Lost('no such branch');
    it.node = way[1];
  }

  // A contract is acquired where it stands at its accept, and released where it stands at its detach.
  share(it, [form, name, , second], at) {
    const end = it.ends.get(name), pid = end && (form === 'acquire' ? end.contract : end.of);
    const contract = this.state.processes.get(pid), node = contract && this.codes.nodes[contract.node];
    if (!node || node.form !== { acquire: 'accept', release: 'detach' }[form]) throw new Lost('not free');
    contract.node = node.ways[0][1];
    contract.self = form === 'acquire' ? { queue: [], of: pid } : null;
    if (form === 'release') it.ends.delete(name);
    it.ends.set(second, contract.self || { contract: pid });
    this.steps.push({ kind: form, pid: it.pid, other: pid, at, text: `${form}s` });
  }

  given(it, { values, channels }) {
    const ends = channels.map(name => it.ends.get(name));
    channels.forEach((name, at) => {
      if (ends[at] && ends[at].contract === undefined) it.ends.delete(name);
    });
    return [values.map(words => valueOf(it, words)), ends];
  }

  spawn(it, words, at) {
    const process = this.codes.processes.get(words[3]), pid = this.state.next++;
    const count = (this.state.counts.get(words[3]) || 0) + 1;
    this.state.counts.set(words[3], count);
    this.make(pid, process, ...this.given(it, argumentsOf(words, 4)), `${words[3]} ${count}`);
    const made = this.state.processes.get(pid);
    made.self = { queue: [] };
    it.ends.set(words[1], made.self);
    if (process.mode === 'S') {
      made.self = null;
      it.ends.set(words[1], { contract: pid });
    }
    this.steps.push({ kind: 'spawns', pid: it.pid, other: pid, at, text: 'makes' });
  }

  call(it, words) {
    const process = this.codes.processes.get(words[1]), { self } = it;
    if (!process) throw new Lost('no such process');
    const [values, ends] = this.given(it, argumentsOf(words, 2));
    this.make(it.pid, process, values, ends, this.state.names.get(it.pid));
    this.state.processes.get(it.pid).self = self;
  }

  close(it, at) {
    this.state.processes.delete(it.pid);
    if (it.self) this.end(it, 'self').queue.push({ from: it.pid, at, form: 'close', text: 'closes' });
    if (it.mode === 'R') this.state.next++;
  }

  // The other channel takes over: what is still to be heard on either is heard in the order in which it was said.
  forward(it, words, at) {
    const own = this.end(it, 'self'), other = this.end(it, words[1]);
    const isFirst = own.queue.some(said => said.from === it.pid);
    other.queue = isFirst ? [...own.queue, ...other.queue] : [...other.queue, ...own.queue];
    own.to = other;
    this.state.processes.delete(it.pid);
    this.steps.push({ kind: 'note', pid: it.pid, at, text: `hands over to ${words[1]}` });
  }
}
