// A link that has both texts in it, behind the #: packed, so that no server gets them.
const LONGEST_LINK = 32000;

function lettersOf(bytes) {
  const text = Array.from(bytes, it => String.fromCharCode(it)).join('');
  return btoa(text).replace(/\+/g, '-').replace(/\//g, '_').replace(/=+$/, '');
}

function bytesOf(letters) {
  return Uint8Array.from(atob(letters.replace(/-/g, '+').replace(/_/g, '/')), it => it.charCodeAt(0));
}

async function through(bytes, stream) {
  return new Uint8Array(await new Response(new Blob([bytes]).stream().pipeThrough(stream)).arrayBuffer());
}

async function linkOf(texts) {
  const packed = await through(new TextEncoder().encode(JSON.stringify(texts)), new CompressionStream('deflate-raw'));
  return `${location.href.split('#')[0]}#texts=${lettersOf(packed)}`;
}

// The texts that the address carries, or null.
async function carried(hash) {
  const found = /^#texts=([A-Za-z0-9_-]+)$/.exec(hash);
  if (!found) return null;
  try {
    const bytes = await through(bytesOf(found[1]), new DecompressionStream('deflate-raw'));
    const texts = JSON.parse(new TextDecoder().decode(bytes));
    return typeof texts.contract === 'string' && typeof texts.script === 'string' ? texts : null;
  } catch {
    return null;
  }
}
