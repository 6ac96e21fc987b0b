// SHA-256 (FIPS 180-4), keys, and bytes.

/** Bytes as lower-case hexadecimal digits, two each. */
export function hex(bytes) {
  return [...bytes].map((byte) => byte.toString(16).padStart(2, "0")).join("");
}

/** The SHA-256 of bytes, as 64 hexadecimal digits like the office writes it. Browsers compute it only for
 * pages that came by TLS or from this machine. */
export async function sha256(bytes) {
  return hex(new Uint8Array(await crypto.subtle.digest("SHA-256", bytes)));
}

/** The bytes of a text in UTF-8. */
export function bytesOf(text) {
  return new TextEncoder().encode(text);
}

/** The bytes of a file that was chosen or dropped. */
export async function bytesOfFile(file) {
  return new Uint8Array(await file.arrayBuffer());
}

/** A new key: 256 random bits, as 64 hexadecimal digits. */
export function newKey() {
  return hex(crypto.getRandomValues(new Uint8Array(32)));
}

/** A digest in groups of eight digits, to compare by eye. */
export function inGroups(digest) {
  return digest.match(/.{1,8}/g).join(" ");
}
