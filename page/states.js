// The states of each type as a picture: what may be said there, from the side of the provider, and what comes then.
const ROW = 34, INDENT = 26;

const SENDS = { '+': '!', '*': '!', '/\\': '!', '|': '!', '&': '?', '-o': '?', '->': '?', '<': '?' };
const ENDS = { 1: 'closes', up: 'is acquired', down: 'is released' };

function classOf(sign) {
  if (sign === 'up' || sign === 'down') return 'shared';
  return PROVIDED.includes(sign) ? 'sent' : 'heard';
}

// The ways that lead from a type, each in words: what is sent by !, and what is heard by ?.
function waysOf(tree) {
  if (tree.sign === '1') return [];
  if (tree.sign === 'up' || tree.sign === 'down') return [[ENDS[tree.sign], tree.ways[0][1]]];
  return tree.ways.map(([words, behind]) => [`${SENDS[tree.sign]} ${words}`, behind]);
}

// The rows of a picture, from the top: how deep each stands, what leads to it, and what it is.
function rowsOf(tree, depth, words, rows) {
  const end = { 1: 'closes', name: tree.name }[tree.sign];
  rows.push({ depth, words, end, kind: tree.sign === 'name' ? 'name' : classOf(tree.sign), sign: tree.sign });
  for (const [more, behind] of waysOf(tree)) rowsOf(behind, depth + 1, more, rows);
  return rows;
}

function pictureOf(name, { mode, tree }, pick) {
  const rows = rowsOf(tree, 0, '', []);
  const wide = Math.max(...rows.map(it => 60 + it.depth * INDENT + widthOf(`${it.words}${it.end || ''}`))) + 40;
  const told = rows.slice(1).map(it => `${it.words}${it.end ? `, then ${it.end}` : ''}`).join('; ');
  const svg = picture(wide, ROW * rows.length + 6, `The type ${name} of mode ${mode}: ${told}`);
  const ends = [];
  rows.forEach((it, at) => {
    const x = 14 + it.depth * INDENT, y = 18 + ROW * at;
    if (it.depth > 0) {
      const from = ends[it.depth - 1];
      shape(svg, 'path', { class: 'arrow', d: `M${from.x} ${from.y + 8}V${y}H${x - 7}` });
      shape(svg, 'path', { class: 'tip', d: `M${x - 2} ${y}l-7 -4v8z` });
    }
    ends[it.depth] = { x, y };
    drawState(svg, it, x, y, at === 0 ? name : '', pick);
  });
  return svg;
}

function drawState(svg, it, x, y, name, pick) {
  const isNamed = it.kind === 'name';
  if (it.sign === '1') shape(svg, 'circle', { class: 'end', cx: x + 6, cy: y, r: 6 });
  else shape(svg, 'circle', { class: isNamed ? 'box' : it.kind, cx: x + 6, cy: y, r: 8 });
  const label = shape(svg, 'text', { x: x + 20, y: y + 4 });
  label.textContent = name || `${it.words}${it.end ? ` → ${it.end}` : ''}`;
  if (isNamed) leads(label, `Go to the type ${it.end}`, () => pick(it.end));
}

function drawTypes(place, text, pick) {
  const types = new Types(text);
  const drawn = [...types.defined].map(([name, it]) => element('div', { className: 'drawn' },
    element('h3', {}, `type ${it.mode} ${name}`), pictureOf(name, it, pick)));
  const told = 'From the side of the provider: ! is sent and ? is heard. Green: the provider goes on. Blue: the client '
    + 'does. Yellow: a shared contract is acquired or released.';
  const lines = drawn.length ? told : 'No type is declared.';
  place.replaceChildren(element('p', {}, lines), ...drawn);
}
