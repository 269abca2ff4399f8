// Accounts and gas in tables, from the lines of the report: who has what at the end, and what each line spent.

function table(caption, heads, rows) {
  const cells = (name, row) => element('tr', {}, ...row.map(it => element(name, {
    className: /^[0-9/]+$/.test(it) ? 'number' : '', ...(name === 'th' ? { scope: 'col' } : {}),
  }, it)));
  return element('table', {}, element('caption', {}, caption), element('thead', {}, cells('th', heads)),
    element('tbody', {}, ...rows.map(it => cells('td', it))));
}

// What a line of the report says of its line: what became of it, its firings, and the gas that it spent.
function rowOfEntry([words, ...behind], script) {
  const line = lineAt(script, Number(words[1])).text.replace(/\/\/.*$/, '').trim();
  const results = behind.filter(it => it[0] === 'result').map(it => it[2]).join(', ');
  const at = words.indexOf('firings'), firings = at < 0 ? '' : words[at + 1];
  const spent = words[2] === 'committed' ? words[6] : '';
  const ends = { refused: words.slice(5).join(' '), aborted: `aborted ${words[4]}` };
  return [words[1], line, ends[words[2]] || words[2], firings, spent, results];
}

function drawAccounts(place, answer, withShow, script) {
  const lines = answer.entries.filter(([it]) => it[2] !== 'show').map(it => rowOfEntry(it, script));
  const shows = withShow.entries.filter(([it]) => it[2] === 'show');
  const last = shows.length ? shows[shows.length - 1].slice(1) : [];
  const of = word => last.filter(it => it[0] === word);
  const accounts = of('account').map(it => [it[1], it[2]]);
  const contracts = of('contract').map(it => [it[1], it[5], it[6], String(owned(of('channel'), it[3]))]);
  const sums = ['stored', 'spent', 'deposits'].flatMap(it => of(it)).map(it => [it[0], it[1]]);
  place.replaceChildren(
    table('Lines', ['line', 'text', 'became', 'firings', 'gas', 'results'], lines),
    ...(accounts.length ? [table('Accounts', ['account', 'gas'], accounts)] : []),
    ...(contracts.length ? [table('Contracts', ['contract', 'gas', 'is', 'owns channels'], contracts)] : []),
    ...(sums.length ? [table('Gas in all', ['', 'gas'], sums)] : []));
}

function owned(channels, pid) {
  return channels.filter(it => it[3] === pid).length;
}
