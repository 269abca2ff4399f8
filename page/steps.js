// The tutorial as steps: what is told, the texts in the panes, and the answers that are due.

const DUE = {
  answer: 'The program answers', explain: './explain says more of it', explained: './explain says of the script',
  tested: './nomos-test says',
};

class Steps {
  constructor(page) {
    this.page = page;
    this.at = 0;
    this.starts = CHAPTERS.flatMap((it, at) => (at === 0 || CHAPTERS[at - 1].chapter !== it.chapter ? [at] : []));
    shown('chapters').append(...this.starts.map(at => new Option(CHAPTERS[at].chapter.replace(/`/g, ''), at)));
    shown('chapters').addEventListener('change', it => this.show(Number(it.target.value)));
    shown('back').addEventListener('click', () => this.show(this.at - 1));
    shown('next').addEventListener('click', () => this.show(this.at + 1));
  }

  show(at) {
    const it = CHAPTERS[at];
    this.at = at;
    shown('tutorial').hidden = false;
    shown('chapter').replaceChildren(...coded(it.chapter));
    shown('where').textContent = `Step ${at + 1} of ${CHAPTERS.length}`;
    shown('back').disabled = at === 0;
    shown('next').disabled = at === CHAPTERS.length - 1;
    shown('chapters').value = String(this.starts.filter(start => start <= at).pop());
    this.tell(it);
    this.page.put(it);
  }

  // What is told is of docs/TUTORIAL.md, and was made into HTML where the page was built.
  tell(it) {
    const before = element('div', { innerHTML: it.before });
    const ask = element('button', { type: 'button' }, it.asks === 'run' ? 'Run it' : 'Check it');
    ask.addEventListener('click', () => this.page.ask(it.asks));
    const what = element('p', {}, `The ${it.asks === 'run' ? 'script' : 'contract'} stands in its pane. `, ask);
    const answers = it.answers.map(answer => element('div', {}, element('div', { innerHTML: answer.told }),
      element('details', {}, element('summary', {}, DUE[answer.kind]), element('pre', {}, answer.text))));
    const behind = it.behind ? [element('div', { innerHTML: it.behind })] : [];
    shown('told').replaceChildren(before, what, ...answers, ...behind);
  }
}
