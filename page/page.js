// The page: what is asked, what is shown of an answer, and where a click leads.
const shown = id => document.getElementById(id);
// The example that is shown first, how long a run may have taken for a second one, and of how many lines mends are
// looked for.
const FIRST = 'auction', SHORT = 2000, MOST_LINES = 5;

class Page {
  constructor() {
    this.program = new Program();
    this.program.grown = size => {
      this.size = size;
    };
    const keys = { 'Ctrl-Enter': () => this.ask('check'), 'Shift-Ctrl-Enter': () => this.ask('run') };
    this.panes = {
      contract: pane(shown('contract'), 'nomos', 'Contract', keys),
      script: pane(shown('script'), 'nomos-script', 'Script', keys),
    };
    for (const it of Object.values(this.panes)) it.on('change', () => this.changed());
    this.bar();
    this.lacks = lacking();
    if (this.lacks) this.cannotRun();
  }

  bar() {
    for (const word of ['check', 'run', 'least']) shown(word).addEventListener('click', () => this.ask(word));
    shown('bar').addEventListener('submit', event => event.preventDefault());
    shown('stop').addEventListener('click', () => this.program.stop());
    shown('link').addEventListener('click', () => this.link());
    shown('examples').append(new Option('', ''), ...Object.keys(EXAMPLES).map(it => new Option(it, `example ${it}`)));
    shown('examples').append(new Option('Tutorial: a first contract', 'tutorial'));
    shown('examples').addEventListener('change', it => this.choose(it.target.value));
    shown('states').addEventListener('toggle', () => this.states());
    window.addEventListener('hashchange', () => this.begin());
  }

  cannotRun() {
    shown('banner').textContent = this.lacks;
    shown('banner').hidden = false;
    for (const word of ['check', 'run', 'least']) shown(word).disabled = true;
    this.say('The program cannot run in this browser.', 'bad');
  }

  // Shows what the address asks for: texts that it carries, a chapter or an example, or the first one.
  async begin() {
    const texts = await carried(location.hash).catch(() => null);
    if (texts) {
      shown('examples').value = '';
      this.put(texts);
    } else if (location.hash === '#tutorial') {
      this.choose('tutorial');
    } else {
      this.choose(`example ${location.hash.slice(1) in EXAMPLES ? location.hash.slice(1) : FIRST}`);
    }
    const isCut = location.hash.startsWith('#texts=') && !texts;
    if (isCut && !this.lacks) this.say('This link does not have both texts in it.', 'bad');
  }

  choose(value) {
    shown('examples').value = value;
    if (value === 'tutorial') {
      this.steps = this.steps || new Steps(this);
      this.steps.show(this.steps.at);
    } else if (value) {
      shown('tutorial').hidden = true;
      this.put(EXAMPLES[value.slice('example '.length)]);
    }
  }

  put({ contract, script }) {
    this.panes.contract.setValue(contract);
    this.panes.script.setValue(script);
    for (const it of Object.values(this.panes)) it.clearHistory();
    this.clear();
    this.say('Ready.', '');
  }

  texts() {
    return { contract: this.panes.contract.getValue(), script: this.panes.script.getValue() };
  }

  changed() {
    for (const it of Object.values(this.panes)) unmark(it);
    shown('linked').hidden = true;
    clearTimeout(this.drawing);
    this.drawing = setTimeout(() => this.states(), 300);
  }

  states() {
    const go = name => {
      const found = this.texts().contract.match(new RegExp(`\\btype\\s+[RSL]\\s+${name}\\b`));
      if (found) select(this.panes.contract, found.index, found.index + found[0].length);
    };
    if (shown('states').open) drawTypes(shown('types'), this.texts().contract, go);
  }

  clear() {
    for (const it of Object.values(this.panes)) unmark(it);
    for (const it of ['found', 'accounts', 'chart', 'journal']) shown(it).replaceChildren();
    shown('answer').textContent = '';
    shown('shown').hidden = true;
  }

  say(text, kind) {
    shown('status').textContent = text;
    shown('status').className = kind;
  }

  options() {
    const steps = shown('steps').value.trim(), policy = shown('policy').value;
    return [...(policy === 'first' ? [] : ['--policy', policy]), ...(steps ? ['--steps', steps] : [])];
  }

  busy(isBusy) {
    for (const word of ['check', 'run', 'least']) shown(word).disabled = isBusy || Boolean(this.lacks);
    shown('stop').disabled = !isBusy;
    clearInterval(this.timer);
    shown('progress').textContent = '';
    if (!isBusy) return;
    const start = performance.now();
    this.size = 0;
    this.timer = setInterval(() => {
      const seconds = ((performance.now() - start) / 1000).toFixed(1);
      const memory = this.size ? `, ${(this.size / 1e6).toFixed(0)} MB` : '';
      shown('progress').textContent = `${seconds} s${memory}`;
    }, 200);
  }

  // Asks the program, shows the answer, and looks for mends.
  async ask(word) {
    if (this.lacks || !shown('stop').disabled) return;
    const texts = this.texts(), start = performance.now();
    this.clear();
    this.busy(true);
    this.say({ check: 'Checking ..', run: 'Running ..', least: 'Looking for the least amounts ..' }[word], '');
    try {
      const answer = await this.answered(word, texts);
      const took = performance.now() - start;
      await this.show(answer, word, texts, took);
    } catch (error) {
      const seconds = ((performance.now() - start) / 1000).toFixed(1);
      this.say(error instanceof Stopped ? `Stopped after ${seconds} s.` : `The call failed: ${error.message}`, 'bad');
    } finally {
      this.busy(false);
    }
  }

  answered(word, { contract, script }) {
    if (word === 'run') return this.program.run(contract, script, [...this.options(), '--journal', 'journal']);
    return word === 'least' ? this.program.least(contract) : this.program.check(contract);
  }

  async show(answer, word, texts, took) {
    const end = endOf(answer, word), time = took < 1000 ? `${took.toFixed(0)} ms` : `${(took / 1000).toFixed(1)} s`;
    const status = answer.status === null ? '' : ` Status ${answer.status},`;
    this.say(`${end}${status} ${time}.`, answer.status === 0 ? 'good' : 'bad');
    shown('answer').textContent = answer.out;
    const found = [...ofContract(answer, texts.contract), ...(word === 'run' ? ofScript(answer, texts.script) : [])];
    if (answer.isCause('ProcType')) found[0].now = new Mender(this.program, texts.contract, answer).now();
    this.explain(found, word);
    if (word === 'run' && [0, 3].includes(answer.status)) await this.showRun(answer, texts, took);
    await this.mend(found, answer, word, texts);
  }

  async showRun(answer, texts, took) {
    shown('shown').hidden = false;
    shown('journal').textContent = answer.journal || '';
    const withShow = () => this.program.run(texts.contract, `${texts.script}\nshow\n`, this.options());
    const more = took < SHORT ? await withShow() : answer;
    drawAccounts(shown('accounts'), answer, more, texts.script);
    drawChart(shown('chart'), answer, texts, (pane, at, end) => select(this.panes[pane], at, end));
  }

  // Looks for mends of what was found first, and of lines whose account has too little gas.
  async mend(found, answer, word, texts) {
    if (!found.length) return;
    const end = shown('status').textContent, kind = shown('status').className;
    this.say(`${end} Looking for mends ..`, kind);
    try {
      await this.findMends(found, answer, texts);
    } catch (error) {
      if (error instanceof Stopped) throw error;
      console.warn(`the search for mends ended: ${error.message}`);
    }
    const count = found.reduce((sum, it) => sum + it.mends.length, 0);
    this.say(`${end} ${count ? `${count} ${count === 1 ? 'mend' : 'mends'} found.` : ''}`, kind);
    if (count) this.explain(found, word);
  }

  async findMends(found, answer, texts) {
    if (found[0].pane === 'contract') {
      found[0].mends = await new Mender(this.program, texts.contract, answer).find();
      if (answer.isCause('NoPotential') && found[0].mends.length) ofAmount(found[0]);
    } else if (answer.status === 3) {
      for (const it of found.slice(0, MOST_LINES)) await this.mendLine(it, answer, texts);
    }
  }

  async mendLine(it, answer, texts) {
    const words = it.answer.split(' ');
    if (!['NoGas', 'NoAccount'].includes(words[5])) return;
    const run = script => this.program.run(texts.contract, script, this.options());
    it.mends = await depositMend(run, texts.script, words, answer.lines);
  }

  explain(found, word) {
    for (const it of Object.values(this.panes)) unmark(it);
    shown('found').replaceChildren(...found.map(it => this.told(it, word, true)));
    for (const it of found) mark(this.panes[it.pane], it, this.told(it, word, false));
    if (found.length) {
      const { pane: name, at } = found[0], editor = this.panes[name];
      editor.scrollIntoView(editor.posFromIndex(at), 120);
    }
  }

  // What is said of one thing that was found: its cause, the sentence, its mends, and the rule.
  told(it, word, hasPlace) {
    const editor = this.panes[it.pane], place = placeOf(editor.getValue(), it.at);
    const go = element('button', { type: 'button' }, `${it.pane} ${place}`);
    go.addEventListener('click', () => select(editor, it.at, it.end));
    const mends = it.mends.map(mend => {
      const button = element('button', { type: 'button', className: 'apply' }, 'Apply');
      button.setAttribute('aria-label', `Apply: ${mend.says}`);
      button.addEventListener('click', () => this.applied(editor, mend, word));
      return element('li', {}, ...coded(mend.says), ' ', button);
    });
    return element('div', { className: 'explained' },
      element('p', {}, ...(hasPlace ? [go, ' '] : []), element('b', {}, it.cause), ' ', ...coded(it.means)),
      ...(mends.length ? [element('p', {}, 'Mend:'), element('ul', {}, ...mends)] : []),
      ...(hasPlace ? this.more(it) : []));
  }

  more(it) {
    const rule = it.rule ? [`Rule: “${it.rule}” in docs/${it.page}.md. `] : [];
    return [...it.now.map(line => element('p', {}, 'Now: ', ...coded(line), '.')),
      element('p', {}, ...rule, 'Answer: ', element('code', {}, it.answer))];
  }

  // Applies a mend, and asks what was asked before.
  applied(editor, mend, word) {
    apply(editor, mend.edits);
    editor.focus();
    this.ask(word);
  }

  async link() {
    const texts = this.texts(), address = await linkOf(texts);
    shown('linked').hidden = false;
    shown('address').value = address;
    shown('address').focus();
    shown('address').select();
    const long = address.length > LONGEST_LINK ? ' Some programs cut links that are so long.' : '';
    shown('carried').textContent = `${address.length} letters.${long}`;
    if (!navigator.clipboard) return;
    navigator.clipboard.writeText(address).then(() => {
      shown('carried').textContent = `${address.length} letters, copied.${long}`;
    }, () => {});
  }
}

// A sentence whose words between backticks are shown as code.
function coded(text) {
  return text.split('`').map((part, at) => (at % 2 ? element('code', {}, part) : part));
}

for (const [name, patterns] of Object.entries(MODES)) defineMode(name, patterns);
const page = new Page();
page.begin();
