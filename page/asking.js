// The program in a thread of its own: it is asked one question after another, says how much memory it takes, and is
// stopped where that is wanted.

class Stopped extends Error {}

// A module of 14 bytes with a memory of 64 bits: a browser that takes it can run the program.
const SMALLEST = Uint8Array.of(0, 97, 115, 109, 1, 0, 0, 0, 5, 3, 1, 4, 1);

// Says why this browser cannot run the program, or nothing where it can.
function lacking() {
  const advice = 'Take a newer Chrome, Edge, Chromium or Firefox, or Nomos itself. The texts can still be read here.';
  if (typeof WebAssembly !== 'object' || !WebAssembly.validate) {
    return `This browser has no WebAssembly, so the program cannot run here. ${advice}`;
  }
  if (!WebAssembly.validate(SMALLEST)) {
    return `This browser has no WebAssembly with memories of 64 bits (wasm64), which the program needs. ${advice}`;
  }
  if (typeof DecompressionStream !== 'function' || typeof Worker !== 'function') {
    return `This browser cannot unpack the program or has no workers. ${advice}`;
  }
  return '';
}

async function unpacked(text) {
  const packed = Uint8Array.from(atob(text), it => it.charCodeAt(0));
  const stream = new Blob([packed]).stream().pipeThrough(new DecompressionStream('gzip'));
  return new Response(stream).arrayBuffer();
}

class Program {
  constructor() {
    this.worker = null;
    this.number = 0;
    this.waiting = new Map();
    this.grown = () => {};
  }

  async start() {
    if (!this.module) this.module = await unpacked(PACKED);
    if (this.worker) return;
    const url = URL.createObjectURL(new Blob([HOST], { type: 'text/javascript' }));
    this.worker = new Worker(url);
    this.worker.onmessage = ({ data }) => this.heard(data);
    this.worker.onerror = event => this.failed(new Error(event.message || 'the thread of the program failed'));
    this.worker.postMessage({ module: this.module });
  }

  heard({ number, size, answer }) {
    const it = this.waiting.get(number);
    if (!it) return;
    if (size !== undefined) {
      this.grown(size);
      return;
    }
    this.waiting.delete(number);
    it.done(new Answer(answer));
  }

  failed(error) {
    if (this.worker) this.worker.terminate();
    this.worker = null;
    for (const it of this.waiting.values()) it.failed(error);
    this.waiting.clear();
  }

  stop() {
    this.failed(new Stopped('stopped'));
  }

  // Gives the answer of the program to words, with these texts as its files.
  async ask(words, texts) {
    await this.start();
    const number = ++this.number;
    return new Promise((done, failed) => {
      this.waiting.set(number, { done, failed });
      this.worker.postMessage({ number, words, texts });
    });
  }

  check(contract) {
    return this.ask(['check', 'contract'], { contract });
  }

  least(contract) {
    return this.ask(['least', 'contract'], { contract });
  }

  run(contract, script, options) {
    return this.ask(['run', 'contract', 'script', ...options], { contract, script });
  }
}
