// Bytes as texts, and texts as bytes.

const encoder = new TextEncoder();
const decoder = new TextDecoder();

export function bytesOf(text) {
  return encoder.encode(text);
}

// The text that bytes are, with U+FFFD where they aren't UTF-8.
export function textOf(bytes) {
  return decoder.decode(bytes);
}

export function bytesOfBase64(text) {
  return Uint8Array.from(atob(text), (character) => character.charCodeAt(0));
}
