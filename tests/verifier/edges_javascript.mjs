/**
 * What vectors cannot say of the verifier in JavaScript: its SHA-256, arguments of other types and
 * sizes, whose bytes a value has, and any bytes.
 *
 *     node edges_javascript.mjs
 */
import { createHash } from "node:crypto";
import process from "node:process";

import { Refused, verify, verifySharded } from "../../verifiers/javascript/mst_verifier.mjs";
import { sha256 } from "../../verifiers/javascript/sha256.mjs";

const ROOT = bytesOf("d4a8a9fc55058427163bd8a1f09ca5ec542de1cdaf28df100be5472e47b72503");
const PROOF = bytesOf("0101000000110100000200016101310003616263017800");
const KEY = bytesOf("61");
const RUNS = 50_000;

let passed = 0;
let failed = 0;

/** @param {string} word */
function bytesOf(word) {
  return new Uint8Array(Buffer.from(word, "hex"));
}

/** @param {Uint8Array | null} bytes */
function shown(bytes) {
  return bytes === null ? "absent" : `present ${Buffer.from(bytes).toString("hex")}`;
}

/** @param {string} what @param {unknown} told @param {unknown} wanted */
function is(what, told, wanted) {
  if (told === wanted) passed += 1;
  else {
    failed += 1;
    console.log(`${what}: ${told}, and not ${wanted}`);
  }
}

/** The answer, the test that fails, or the error's name. @param {() => Uint8Array | null} call */
function told(call) {
  try {
    return shown(call());
  } catch (error) {
    if (error instanceof Refused) return error.test;
    return error instanceof Error ? error.name : "no error";
  }
}

let state = 2463534242;

/** A number below a limit. @param {number} limit */
function below(limit) {
  state ^= state << 13;
  state ^= state >>> 17;
  state ^= state << 5;
  return (state >>> 0) % limit;
}

/** @param {number} length */
function someBytes(length) {
  return Uint8Array.from({ length }, () => below(below(3) ? 256 : 5));
}

// ---- SHA-256: the examples of NIST for FIPS 180-4, and Node's own

for (const [text, digest] of [
  ["", "e3b0c44298fc1c149afbf4c8996fb92427ae41e4649b934ca495991b7852b855"],
  ["abc", "ba7816bf8f01cfea414140de5dae2223b00361a396177a9cb410ff61f20015ad"],
  [
    "abcdbcdecdefdefgefghfghighijhijkijkljklmklmnlmnomnopnopq",
    "248d6a61d20638b8e5c026930c3e6039a33ce45964ff2167f6ecedd419db06c1",
  ],
  ["a".repeat(1_000_000), "cdc76e5c9914fb9281a1c7e284d73e67f1809a48a497200e046d39ccc7112cd0"],
]) {
  is("an example", Buffer.from(sha256(Buffer.from(text))).toString("hex"), digest);
}
for (let length = 0; length <= 1_000; length++) {
  const bytes = someBytes(length);
  const wanted = createHash("sha256").update(bytes).digest("hex");
  is(`${length} bytes`, Buffer.from(sha256(bytes)).toString("hex"), wanted);
}

// ---- arguments

is("present", told(() => verify(1, ROOT, KEY, PROOF)), "present 31");
const buffers = [ROOT, KEY, PROOF].map((bytes) => Buffer.from(bytes));
is("Buffers", told(() => verify(1, buffers[0], buffers[1], buffers[2])), "present 31");
for (const by of [verify, verifySharded]) {
  for (const format of [0, 3, -1, 1.5, NaN, "1", 1n, null, undefined, true]) {
    is("a format", told(() => by(/** @type {1} */ (format), ROOT, KEY, PROOF)), "RangeError");
  }
  for (const other of ["61", [0x61], null, undefined, 97, KEY.buffer, new DataView(KEY.buffer)]) {
    const bytes = /** @type {Uint8Array} */ (other);
    is("no bytes for a root", told(() => by(1, bytes, KEY, PROOF)), "TypeError");
    is("no bytes for a key", told(() => by(1, ROOT, bytes, PROOF)), "TypeError");
    is("no bytes for a proof", told(() => by(1, ROOT, KEY, bytes)), "TypeError");
  }
}
is("a proof of no bytes", told(() => verify(1, ROOT, KEY, new Uint8Array(0))), "P2");
is("format 2", told(() => verify(2, ROOT, KEY, PROOF)), "P1");
is("no sharded map", told(() => verifySharded(1, ROOT, KEY, PROOF)), "S1");
for (let length = 0; length < 300; length++) {
  const bytes = new Uint8Array(length).fill(0x61, 0, 1);
  const wanted = length < 1 || length > 32 ? "RangeError" : length === 1 ? "present 31" : "absent";
  is("a key", told(() => verify(1, ROOT, bytes, PROOF)), wanted);
  is("a root", told(() => verify(1, bytes, KEY, PROOF)), length === 32 ? "P5" : "RangeError");
}

// ---- the value is the caller's alone

const changing = PROOF.slice();
const value = verify(1, ROOT, KEY, changing);
changing.fill(0);
is("a value stays", shown(value), "present 31");
is("a value has its own buffer", value?.buffer.byteLength, 1);
value?.fill(0);
is("a value that is changed", told(() => verify(1, ROOT, KEY, PROOF)), "present 31");

// ---- any bytes: an answer would be one more pair of texts with one SHA-256

for (let run = 0; run < RUNS; run++) {
  const bytes = someBytes(below(97));
  const format = /** @type {1 | 2} */ (1 + (run % 2));
  const sharded = told(() => verifySharded(format, ROOT, KEY, bytes));
  is("any bytes", /^P(10|[1-9])$/.test(told(() => verify(format, ROOT, KEY, bytes))), true);
  is("any bytes of a sharded map", /^S[1-9]( P(10|[1-9]))?$/.test(sharded), true);
}

console.log(`${passed} as wanted, ${failed} not`);
process.exitCode = failed > 0 ? 1 : 0;
