// Runs the module in a thread of its own: each call gets a fresh instance, words and texts, and gives what is written
// and the status. The module is the program, compiled for a memory of 64 bits; shim.c asks it for words and files.

class Exit {
  constructor(status) {
    this.status = status;
  }
}

const NOWHERE = -1n, TOO_LONG = -2n;
let compiled;

function joined(parts) {
  const all = new Uint8Array(parts.reduce((size, it) => size + it.length, 0));
  parts.reduce((at, it) => {
    all.set(it, at);
    return at + it.length;
  }, 0);
  return all;
}

// Bytes as text with one character for each, as the program writes them: all that it writes is ASCII.
function textOf(parts) {
  return new TextDecoder('latin1').decode(joined(parts));
}

// The files of one call: 1 and 2 are the outputs, and the others are opened by name.
class Files {
  constructor(texts) {
    const encoder = new TextEncoder();
    this.named = new Map(Object.entries(texts).map(([name, text]) => [name, { bytes: encoder.encode(text) }]));
    this.opened = [null, { parts: [] }, { parts: [] }];
  }

  open(name, isWritten) {
    if (isWritten) this.named.set(name, { parts: [] });
    const file = this.named.get(name);
    return file === undefined ? -1 : this.opened.push({ ...file, at: 0 }) - 1;
  }

  read(file, size) {
    const it = this.opened[file];
    if (!it || !it.bytes) return null;
    const part = it.bytes.subarray(it.at, it.at + size);
    it.at += part.length;
    return part;
  }

  write(file, bytes) {
    const it = this.opened[file];
    if (!it || !it.parts) return false;
    it.parts.push(bytes);
    return true;
  }

  written(name) {
    const file = this.named.get(name);
    return file && file.parts ? textOf(file.parts) : null;
  }
}

// The functions that shim.c asks for. The memory is there once the module stands.
function hostOf(words, files, memory, grown) {
  const line = ['nomos', ...words].map(it => new TextEncoder().encode(it));
  const bytes = (at, size) => new Uint8Array(memory().buffer, Number(at), Number(size));
  const put = (at, part) => {
    bytes(at, part.length).set(part);
    return BigInt(part.length);
  };
  const nameAt = at => {
    const rest = new Uint8Array(memory().buffer, Number(at));
    return new TextDecoder().decode(rest.slice(0, rest.indexOf(0)));
  };
  return {
    open: (at, flags) => files.open(nameAt(at), (flags & 3) !== 0),
    read(file, at, size) {
      const part = files.read(file, Number(size));
      return part === null ? NOWHERE : put(at, part);
    },
    write: (file, at, size) => (files.write(file, bytes(at, size).slice()) ? size : NOWHERE),
    arg(number, at, size) {
      const word = line[Number(number)];
      if (word === undefined) return NOWHERE;
      return word.length > Number(size) ? TOO_LONG : put(at, word);
    },
    exit(status) {
      throw new Exit(status);
    },
    grown: size => grown(Number(size)),
  };
}

// Gives the status, the output, and the journal where one was kept; or which fault of the machine ended the call.
function call(words, texts, grown) {
  const files = new Files(texts);
  let instance;
  try {
    instance = new WebAssembly.Instance(compiled, { host: hostOf(words, files, () => instance.exports.memory, grown) });
    return ended(instance.exports.main(0, 0n), files);
  } catch (it) {
    if (it instanceof Exit) return ended(it.status, files);
    return { status: null, out: '', journal: null, fault: String(it) };
  }
}

function ended(status, files) {
  return { status, out: textOf(files.opened[1].parts), journal: files.written('journal') };
}

self.onmessage = ({ data }) => {
  if (data.module) {
    compiled = new WebAssembly.Module(data.module);
    return;
  }
  const grown = size => self.postMessage({ number: data.number, size });
  self.postMessage({ number: data.number, answer: call(data.words, data.texts, grown) });
};
