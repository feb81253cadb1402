/**
 * SHA-256 (FIPS 180-4) in JavaScript, for browsers and Node. Unlike that of WebCrypto it needs no
 * waiting.
 *
 * @module
 */

const ROUNDS = Int32Array.of(
  0x428a2f98, 0x71374491, 0xb5c0fbcf, 0xe9b5dba5, 0x3956c25b, 0x59f111f1, 0x923f82a4, 0xab1c5ed5,
  0xd807aa98, 0x12835b01, 0x243185be, 0x550c7dc3, 0x72be5d74, 0x80deb1fe, 0x9bdc06a7, 0xc19bf174,
  0xe49b69c1, 0xefbe4786, 0x0fc19dc6, 0x240ca1cc, 0x2de92c6f, 0x4a7484aa, 0x5cb0a9dc, 0x76f988da,
  0x983e5152, 0xa831c66d, 0xb00327c8, 0xbf597fc7, 0xc6e00bf3, 0xd5a79147, 0x06ca6351, 0x14292967,
  0x27b70a85, 0x2e1b2138, 0x4d2c6dfc, 0x53380d13, 0x650a7354, 0x766a0abb, 0x81c2c92e, 0x92722c85,
  0xa2bfe8a1, 0xa81a664b, 0xc24b8b70, 0xc76c51a3, 0xd192e819, 0xd6990624, 0xf40e3585, 0x106aa070,
  0x19a4c116, 0x1e376c08, 0x2748774c, 0x34b0bcb5, 0x391c0cb3, 0x4ed8aa4a, 0x5b9cca4f, 0x682e6ff3,
  0x748f82ee, 0x78a5636f, 0x84c87814, 0x8cc70208, 0x90befffa, 0xa4506ceb, 0xbef9a3f7, 0xc67178f2,
);
const START = Int32Array.of(
  0x6a09e667, 0xbb67ae85, 0x3c6ef372, 0xa54ff53a, 0x510e527f, 0x9b05688c, 0x1f83d9ab, 0x5be0cd19,
);
const BLOCK = 64;

// A call fills these anew: taking memory for each would cost more than the hash of a key.
const schedule = new Int32Array(64);
const state = new Int32Array(8);
const last = new Uint8Array(2 * BLOCK);

/** @param {number} word @param {number} count */
const turned = (word, count) => (word >>> count) | (word << (32 - count));

/**
 * The message schedule of the block that begins at a place (FIPS 180-4, section 6.2.2, step 1).
 *
 * @param {Uint8Array} bytes
 * @param {number} start
 */
function fillSchedule(bytes, start) {
  for (let t = 0, at = start; t < 16; t++, at += 4) {
    schedule[t] =
      (bytes[at] << 24) | (bytes[at + 1] << 16) | (bytes[at + 2] << 8) | bytes[at + 3];
  }
  for (let t = 16; t < 64; t++) {
    const far = schedule[t - 15];
    const near = schedule[t - 2];
    const low = turned(far, 7) ^ turned(far, 18) ^ (far >>> 3);
    const high = turned(near, 17) ^ turned(near, 19) ^ (near >>> 10);
    schedule[t] = (schedule[t - 16] + low + schedule[t - 7] + high) | 0;
  }
}

/**
 * Takes the block that begins at a place into the hash value (steps 2 to 4).
 *
 * @param {Uint8Array} bytes
 * @param {number} start
 */
function compress(bytes, start) {
  fillSchedule(bytes, start);
  let a = state[0], b = state[1], c = state[2], d = state[3];
  let e = state[4], f = state[5], g = state[6], h = state[7];
  for (let t = 0; t < 64; t++) {
    const chosen = (e & f) ^ (~e & g);
    const majority = (a & b) ^ (a & c) ^ (b & c);
    const high = turned(e, 6) ^ turned(e, 11) ^ turned(e, 25);
    const low = turned(a, 2) ^ turned(a, 13) ^ turned(a, 22);
    const one = (h + high + chosen + ROUNDS[t] + schedule[t]) | 0;
    h = g, g = f, f = e, e = (d + one) | 0;
    d = c, c = b, b = a, a = (one + low + majority) | 0;
  }
  state[0] += a, state[1] += b, state[2] += c, state[3] += d;
  state[4] += e, state[5] += f, state[6] += g, state[7] += h;
}

/**
 * Fills the last blocks: the bytes from a place on, a bit 1, zeros, and the length of all in bits
 * (section 5.1.1).
 *
 * @param {Uint8Array} bytes
 * @param {number} start
 * @returns {number} how many bytes the last blocks have
 */
function pad(bytes, start) {
  const rest = bytes.length - start;
  const size = rest < BLOCK - 8 ? BLOCK : 2 * BLOCK;
  last.fill(0);
  for (let at = 0; at < rest; at++) last[at] = bytes[start + at];
  last[rest] = 0x80;
  let bits = 8 * bytes.length;
  for (let at = size - 1; bits > 0; at--) {
    last[at] = bits % 256;
    bits = Math.floor(bits / 256);
  }
  return size;
}

/**
 * The SHA-256 of bytes.
 *
 * @param {Uint8Array} bytes
 * @returns {Uint8Array} 32 bytes
 */
export function sha256(bytes) {
  state.set(START);
  const whole = bytes.length - (bytes.length % BLOCK);
  for (let at = 0; at < whole; at += BLOCK) compress(bytes, at);
  const size = pad(bytes, whole);
  for (let at = 0; at < size; at += BLOCK) compress(last, at);
  const digest = new Uint8Array(4 * state.length);
  for (let at = 0; at < digest.length; at++) digest[at] = state[at >> 2] >> (24 - 8 * (at & 3));
  return digest;
}
