// Pictures: elements of SVG, and a label of each picture for who does not see it.
const SVG = 'http://www.w3.org/2000/svg', WIDE_LETTER = 7;

function shape(parent, name, attributes, text) {
  const it = document.createElementNS(SVG, name);
  for (const [key, value] of Object.entries(attributes)) it.setAttribute(key, value);
  if (text !== undefined) it.textContent = text;
  parent.append(it);
  return it;
}

function picture(wide, high, label) {
  const svg = document.createElementNS(SVG, 'svg');
  svg.setAttribute('width', wide);
  svg.setAttribute('height', high);
  svg.setAttribute('role', 'group');
  svg.setAttribute('aria-label', label);
  return svg;
}

function widthOf(text) {
  return text.length * WIDE_LETTER;
}

// Makes something that is clicked, or reached by the keyboard, lead somewhere.
function leads(it, label, go) {
  it.setAttribute('tabindex', '0');
  it.setAttribute('role', 'button');
  it.setAttribute('aria-label', label);
  it.addEventListener('click', go);
  it.addEventListener('keydown', event => {
    if (event.key === 'Enter' || event.key === ' ') {
      event.preventDefault();
      go();
    }
  });
}

function element(name, attributes, ...inside) {
  const it = document.createElement(name);
  for (const [key, value] of Object.entries(attributes)) {
    if (key in it && key !== 'list') it[key] = value;
    else it.setAttribute(key, value);
  }
  it.append(...inside);
  return it;
}
