// The two panes: CodeMirror with the words of editors/, marks at what is wrong, and the explanation below its line.

// A mode from the patterns of a TextMate grammar, with a rule for other words, so that none is lit inside of another.
function defineMode(name, patterns) {
  const rules = patterns.map(({ match, token }) => (match.startsWith('^')
    ? { regex: new RegExp(match.slice(1)), token, sol: true } : { regex: new RegExp(match), token }));
  const others = { regex: /[A-Za-z_][A-Za-z_0-9]*/, token: null };
  CodeMirror.defineSimpleMode(name, { start: [...rules, others], meta: { lineComment: '//' } });
}

function pane(place, mode, label, keys) {
  const made = CodeMirror(place, {
    mode, theme: 'nomos', lineNumbers: true, inputStyle: 'contenteditable', screenReaderLabel: label, indentUnit: 2,
    matchBrackets: true, lineWrapping: false, spellcheck: false,
    extraKeys: { Tab: false, 'Shift-Tab': false, ...keys },
  });
  const told = { role: 'textbox', 'aria-multiline': 'true', 'aria-label': label };
  for (const [name, value] of Object.entries(told)) made.getInputField().setAttribute(name, value);
  made.marked = [];
  return made;
}

function unmark(editor) {
  for (const it of editor.marked) it.clear();
  editor.marked = [];
}

// Marks a place, and writes what is found there below its line.
function mark(editor, found, node) {
  const end = Math.max(found.end, found.at + 1);
  const from = editor.posFromIndex(found.at), to = editor.posFromIndex(end);
  editor.marked.push(editor.markText(from, to, { className: 'marked', title: found.cause }));
  const { clientWidth } = editor.getScrollInfo();
  node.style.maxWidth = `${clientWidth - editor.getGutterElement().offsetWidth - 2}px`;
  const widget = editor.addLineWidget(from.line, node, { handleMouseEvents: true });
  editor.marked.push(widget);
}

function select(editor, at, end) {
  editor.focus();
  editor.setSelection(editor.posFromIndex(at), editor.posFromIndex(end));
  editor.scrollIntoView({ from: editor.posFromIndex(at), to: editor.posFromIndex(end) }, 90);
}

// Applies edits as one change, so that one undo takes them back.
function apply(editor, edits) {
  editor.operation(() => {
    for (const [at, end, put] of [...edits].sort((a, b) => b[0] - a[0])) {
      editor.replaceRange(put, editor.posFromIndex(at), editor.posFromIndex(end), '+mend');
    }
  });
}
