// A sequence chart for each batch: a lane for each process, and an arrow for each message, drawn where it is heard.
const NOT_FOLLOWED = 'This batch could not be followed along the text here. The journal has its firings.';
const LANE = 132, HIGH = 26, TOP = 46, MOST_STEPS = 200;

function lanesOf(steps) {
  return [...new Set(steps.flatMap(it => [it.pid, it.other]).filter(it => it !== undefined))];
}

function chartOf(batch, steps, go) {
  const lanes = lanesOf(steps), x = pid => 70 + LANE * lanes.indexOf(pid);
  const bottom = TOP + HIGH * steps.length, wide = 150 + LANE * (lanes.length - 1);
  const told = steps.map(it => toldStep(batch, it)).join('; ');
  const svg = picture(Math.max(wide, 240), bottom + 8, `Line ${batch.line}: ${told}`);
  const below = shape(svg, 'g', {}), held = new Map(), born = new Map();
  steps.forEach((it, at) => {
    const y = TOP + HIGH * at + 8;
    if (it.kind === 'spawns') born.set(it.other, y);
    if (it.kind === 'acquire') held.set(it.other, y);
    if (it.kind === 'release') {
      const top = held.has(it.other) ? held.get(it.other) : TOP - 10;
      shape(below, 'rect', { class: 'shared', x: x(it.other) - 5, y: top, width: 10, height: y - top });
    }
    drawStep(svg, batch, it, x, y, go);
  });
  for (const pid of lanes) {
    const top = born.has(pid) ? born.get(pid) + 11 : TOP - 14;
    shape(below, 'line', { class: 'lane', x1: x(pid), y1: top, x2: x(pid), y2: bottom });
    shape(svg, 'rect', { class: 'box', x: x(pid) - 60, y: top - 22, width: 120, height: 20, rx: 4 });
    const name = batch.names.get(pid) || `process ${pid}`;
    const short = name.length > 17 ? `${name.slice(0, 16)}…` : name;
    shape(svg, 'text', { x: x(pid), y: top - 8, 'text-anchor': 'middle' }, short);
  }
  return svg;
}

function toldStep(batch, it) {
  const name = pid => batch.names.get(pid) || `process ${pid}`;
  const to = it.other === undefined ? '' : it.kind === 'says' ? ` to ${name(it.other)}` : ` ${name(it.other)}`;
  return `${name(it.pid)} ${it.kind === 'says' ? 'says ' : ''}${it.text}${to}`;
}

function drawStep(svg, batch, it, x, y, go) {
  const group = shape(svg, 'g', {}), from = x(it.pid);
  if (it.at) leads(group, `${toldStep(batch, it)}: go to it`, () => go('contract', it.at.at, it.at.end));
  if (it.other === undefined) {
    shape(group, 'circle', { class: 'own', cx: from, cy: y, r: 4 });
    shape(group, 'text', { x: from + 9, y: y + 4 }, it.text);
    return;
  }
  const to = x(it.other), way = Math.sign(from - to) || 1;
  const dashes = it.kind === 'spawns' ? { 'stroke-dasharray': '4 3' } : {};
  const tip = it.kind === 'spawns' ? to + way * 60 : to;
  shape(group, 'line', { class: 'arrow', x1: from, y1: y, x2: tip + way * 7, y2: y, ...dashes });
  shape(group, 'path', { class: 'tip', d: `M${tip} ${y}l${way * 8} -4v8z` });
  const isMade = it.kind === 'spawns', anchor = isMade ? (way > 0 ? 'end' : 'start') : 'middle';
  shape(group, 'text', { x: isMade ? from - way * 6 : (from + to) / 2, y: y - 4, 'text-anchor': anchor }, it.text);
}

// One batch: its line, how it ended, and its chart, which is drawn once it is opened.
function drawnBatch(batch, script, go, isOpen) {
  const line = lineAt(script, batch.line).text.replace(/\/\/.*$/, '').trim();
  const summary = element('summary', {}, `line ${batch.line}: ${line} · ${batch.end}`);
  const place = element('details', { className: 'batch' }, summary);
  const draw = () => {
    if (!place.open || place.children.length > 1) return;
    const steps = batch.steps.slice(0, MOST_STEPS), left = batch.steps.length - steps.length;
    if (batch.isLost) place.append(element('p', {}, NOT_FOLLOWED));
    else place.append(element('div', { className: 'drawn', tabIndex: 0 }, chartOf(batch, steps, go)));
    if (left > 0) place.append(element('p', {}, `${left} more steps are not drawn.`));
  };
  place.addEventListener('toggle', draw);
  place.open = isOpen;
  return place;
}

function drawChart(place, answer, texts, go) {
  try {
    const { batches } = new Tale(texts.contract, texts.script, answer.journal || '');
    const drawn = batches.filter(it => it.isLost || it.steps.length > 1);
    const first = drawn.find(it => it.steps.some(step => step.kind === 'says'));
    place.replaceChildren(...drawn.map(it => drawnBatch(it, texts.script, go, it === first)),
      ...(drawn.length ? [] : ['Nothing was said.']));
  } catch (error) {
    place.replaceChildren(`No chart can be drawn of this: ${error.message}.`);
  }
}
