// A text in a link: compressed, behind the #, so that no server ever sees it.

export const MOST = 16000; // bytes of a compressed text in a link

async function through(stream, bytes) {
  const writer = stream.writable.getWriter();
  writer.write(bytes);
  writer.close();
  return new Uint8Array(await new Response(stream.readable).arrayBuffer());
}

const toText = (bytes) => btoa(Array.from(bytes, (byte) => String.fromCharCode(byte)).join(""))
  .replace(/\+/g, "-").replace(/\//g, "_").replace(/=+$/, "");
const toBytes = (text) => Uint8Array.from(atob(text.replace(/-/g, "+").replace(/_/g, "/")), (c) => c.charCodeAt(0));

/** What comes behind the # of a link, or nothing where it is too long. */
export async function packed(state) {
  const bytes = await through(new CompressionStream("deflate-raw"), new TextEncoder().encode(JSON.stringify(state)));
  return bytes.length > MOST ? null : toText(bytes);
}

/** The state in a link, or nothing where it is none. */
export async function unpacked(text) {
  try {
    const bytes = await through(new DecompressionStream("deflate-raw"), toBytes(text));
    return JSON.parse(new TextDecoder().decode(bytes.slice(0, 400000)));
  } catch { return null; }
}
