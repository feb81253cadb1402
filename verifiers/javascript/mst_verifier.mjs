/**
 * The verifier of proofs in JavaScript, written from docs/FORMAT.md alone, for browsers and Node.
 * It needs sha256.mjs next to it, and nothing else.
 *
 *     import { verify, verifySharded, Refused } from "./mst_verifier.mjs";
 *
 * A root digest tells neither its format nor whether it is of one map or of a sharded map. Take both
 * from where you take the root digest, never from the proof: the wrong call may accept a false
 * answer.
 *
 * @module
 */
import { sha256 } from "./sha256.mjs";

/** @typedef {1 | 2} Format the format of a root digest and of its proofs */
/** @typedef {"P1" | "P2" | "P3" | "P4" | "P5" | "P6" | "P7" | "P8" | "P9" | "P10"} ProofTest */
/** @typedef {"S1" | "S2" | "S3" | "S5" | "S6" | "S7" | "S8"} FrameTest */
/** @typedef {ProofTest | FrameTest | `S4 ${ProofTest}` | `S9 ${ProofTest}`} Test */

/** The error of a proof that fails a test. */
export class Refused extends Error {
  /** @param {Test} test the first test that fails: "P5", of a sharded map "S1" or "S4 P5" */
  constructor(test) {
    super(`the proof fails ${test}`);
    this.name = "Refused";
    /** @readonly the first test that fails */
    this.test = test;
  }
}

const DIGEST = 32;

// ---- bytes

/**
 * The bytewise order: below 0 if the first is less, 0 if both are the same. A front is less than
 * the whole.
 *
 * @param {Uint8Array} one
 * @param {Uint8Array} other
 */
function compare(one, other) {
  const shorter = Math.min(one.length, other.length);
  for (let at = 0; at < shorter; at++) {
    if (one[at] !== other[at]) return one[at] - other[at];
  }
  return one.length - other.length;
}

/** Bytes that are read from the front. */
class Reader {
  #bytes;
  #at = 0;
  #short;

  /**
   * @param {Uint8Array} bytes
   * @param {Test} short the test that fails where fewer bytes are left than are asked for
   */
  constructor(bytes, short) {
    this.#bytes = bytes;
    this.#short = short;
  }

  /** @param {number} count */
  take(count) {
    const start = this.#at;
    if (this.#bytes.length - start < count) throw new Refused(this.#short);
    this.#at += count;
    return this.#bytes.subarray(start, start + count);
  }

  byte() {
    if (this.isAtEnd()) throw new Refused(this.#short);
    return this.#bytes[this.#at++];
  }

  /** @param {number} size how many bytes spell the number, the high one first */
  number(size) {
    let number = 0;
    for (let left = size; left > 0; left--) number = 256 * number + this.byte();
    return number;
  }

  rest() {
    return this.#bytes.subarray(this.#at);
  }

  isAtEnd() {
    return this.#at === this.#bytes.length;
  }
}

// ---- the text of a node

/**
 * @typedef {object} Node
 * @property {number} layer
 * @property {Uint8Array[]} keys
 * @property {Uint8Array[]} held of each key the value, in format 2 the SHA-256 of the value
 * @property {(Uint8Array | null)[]} children the digest of each child: before the first key, and
 *     after each; null where there is none
 */

/**
 * With how many digits 0 the key's SHA-256 begins, in base 16 in format 1, in base 4 in format 2.
 *
 * @param {Format} format
 * @param {Uint8Array} key
 */
function layerOf(format, key) {
  const digest = sha256(key);
  const at = digest.findIndex((byte) => byte !== 0);
  // Math.clz32 counts the zeros of 32 bits, of which a byte is the last eight.
  const zeros = at < 0 ? 8 * DIGEST : 8 * at + Math.clz32(digest[at]) - 24;
  return Math.floor(zeros / (format === 1 ? 4 : 2));
}

/** @param {Reader} text */
function readChild(text) {
  const flag = text.byte();
  if (flag > 1) throw new Refused("P4");
  return flag === 1 ? text.take(DIGEST) : null;
}

/**
 * @param {Reader} text
 * @param {number} least
 * @param {number} most
 */
function readCounted(text, least, most) {
  const length = text.byte();
  if (length < least || length > most) throw new Refused("P4");
  return text.take(length);
}

/**
 * @param {Format} format
 * @param {Uint8Array} bytes
 * @returns {Node}
 */
function readNode(format, bytes) {
  const text = new Reader(bytes, "P4");
  if (text.byte() !== format) throw new Refused("P4");
  const layer = text.byte();
  const count = text.number(2);
  if (count === 0) throw new Refused("P4");
  /** @type {Node} */
  const node = { layer, keys: [], held: [], children: [readChild(text)] };
  for (let place = 0; place < count; place++) {
    const key = readCounted(text, 1, 32);
    const isRising = place === 0 || compare(node.keys[place - 1], key) < 0;
    if (!isRising || layerOf(format, key) !== layer) throw new Refused("P4");
    node.keys.push(key);
    node.held.push(format === 1 ? readCounted(text, 0, 64) : text.take(DIGEST));
    node.children.push(readChild(text));
  }
  if (!text.isAtEnd()) throw new Refused("P4");
  return node;
}

// ---- the frame of a proof

/**
 * What a proof of format 2 claims: a value, or null for absence; not fit if it can be no answer.
 *
 * @typedef {{ isFit: boolean, answer: Uint8Array | null }} Claim
 */

/**
 * @param {Reader} proof
 * @returns {Claim}
 */
function readTail(proof) {
  const first = proof.byte();
  if (first !== 1) return { isFit: first === 0, answer: null };
  const answer = proof.take(proof.byte());
  return { isFit: answer.length <= 64, answer };
}

/**
 * @param {Format} format
 * @param {Uint8Array} bytes
 */
function readFrame(format, bytes) {
  const proof = new Reader(bytes, "P2");
  if (proof.byte() !== format) throw new Refused("P1");
  const texts = [];
  for (let left = proof.byte(); left > 0; left--) texts.push(proof.take(proof.number(4)));
  const claim = format === 2 ? readTail(proof) : null;
  if (!proof.isAtEnd()) throw new Refused("P3");
  return { texts, claim };
}

// ---- the tests of a proof

/**
 * What is expected of a text.
 *
 * @typedef {object} Expected
 * @property {Uint8Array} digest
 * @property {number} upper the layer that its layer is below
 * @property {Uint8Array | null} low the key that its keys are above, if any
 * @property {Uint8Array | null} high the key that its keys are below, if any
 */

/**
 * @param {Uint8Array} text
 * @param {Node} node
 * @param {Expected} expected
 */
function expect(text, node, { digest, upper, low, high }) {
  if (compare(sha256(text), digest) !== 0) throw new Refused("P5");
  if (node.layer >= upper) throw new Refused("P6");
  const isAbove = low === null || compare(node.keys[0], low) > 0;
  const isBelow = high === null || compare(node.keys[node.keys.length - 1], high) < 0;
  if (!isAbove || !isBelow) throw new Refused("P7");
}

/**
 * What the texts show that a node holds of the key, or null if it is absent.
 *
 * @param {Format} format
 * @param {Uint8Array} root
 * @param {Uint8Array} key
 * @param {Uint8Array[]} texts one or more
 */
function follow(format, root, key, texts) {
  /** @type {Expected} */
  let expected = { digest: root, upper: Infinity, low: null, high: null };
  for (let place = 0; ; place++) {
    const node = readNode(format, texts[place]);
    expect(texts[place], node, expected);
    const { keys } = node;
    const found = keys.findIndex((it) => compare(it, key) >= 0);
    const gap = found < 0 ? keys.length : found;
    const isHeld = found >= 0 && compare(keys[found], key) === 0;
    const child = node.children[gap];
    const isLast = place === texts.length - 1;
    if (isHeld || child === null) {
      if (!isLast) throw new Refused("P9");
      return isHeld ? node.held[gap] : null;
    }
    if (isLast) throw new Refused("P8");
    const low = gap > 0 ? keys[gap - 1] : expected.low;
    const high = gap < keys.length ? keys[gap] : expected.high;
    expected = { digest: child, upper: node.layer, low, high };
  }
}

/**
 * The claimed answer, if its SHA-256 is what is held.
 *
 * @param {Claim} claim
 * @param {Uint8Array | null} held
 */
function opened({ isFit, answer }, held) {
  const isHeld =
    answer === null || held === null
      ? answer === held
      : compare(sha256(answer), held) === 0;
  if (!isFit || !isHeld) throw new Refused("P10");
  return answer;
}

const EMPTY_MAP = sha256(new Uint8Array(0));

/**
 * @param {Format} format
 * @param {Uint8Array} root
 * @param {Uint8Array} key
 * @param {Uint8Array} proof
 */
function answerOf(format, root, key, proof) {
  const { texts, claim } = readFrame(format, proof);
  if (texts.length === 0 && compare(root, EMPTY_MAP) !== 0) throw new Refused("P5");
  const held = texts.length === 0 ? null : follow(format, root, key, texts);
  return claim === null ? held : opened(claim, held);
}

// ---- sharded maps

/**
 * The lower bound in a proof of a sharded map, the directory's proof and the shard's.
 *
 * @param {Format} format
 * @param {Uint8Array} bytes
 */
function readParts(format, bytes) {
  const proof = new Reader(bytes, "S2");
  if (proof.byte() !== format + 2) throw new Refused("S1");
  const low = proof.take(proof.byte());
  if (low.length < 1 || low.length > 32) throw new Refused("S3");
  const directory = proof.take(proof.number(4));
  return { low, directory, shard: proof.rest() };
}

/**
 * As `answerOf`, for a part of a proof.
 *
 * @param {"S4" | "S9"} test the test that the part is to pass
 * @param {Format} format
 * @param {Uint8Array} root
 * @param {Uint8Array} key
 * @param {Uint8Array} proof
 */
function answerOfPart(test, format, root, key, proof) {
  try {
    return answerOf(format, root, key, proof);
  } catch (error) {
    if (!(error instanceof Refused)) throw error;
    throw new Refused(/** @type {Test} */ (`${test} ${error.test}`));
  }
}

/** @type {typeof answerOf} */
function answerOfSharded(format, root, key, proof) {
  const { low, directory, shard } = readParts(format, proof);
  const listing = answerOfPart("S4", format, root, low, directory);
  if (listing === null) throw new Refused("S5");
  if (listing.length < DIGEST) throw new Refused("S6");
  const high = listing.subarray(DIGEST);
  if (compare(key, low) < 0) throw new Refused("S7");
  if (high.length > 0 && compare(key, high) >= 0) throw new Refused("S8");
  return answerOfPart("S9", format, listing.subarray(0, DIGEST), key, shard);
}

// ---- the calls

/**
 * A copy, which nobody else can change.
 *
 * @param {Uint8Array} bytes
 */
function copied(bytes) {
  if (!(bytes instanceof Uint8Array)) throw new TypeError("bytes are to be a Uint8Array");
  return new Uint8Array(bytes);
}

/**
 * @param {typeof answerOf} verifier
 * @param {Format} format
 * @param {Uint8Array} root
 * @param {Uint8Array} key
 * @param {Uint8Array} proof
 */
function ask(verifier, format, root, key, proof) {
  if (format !== 1 && format !== 2) throw new RangeError("there are formats 1 and 2");
  const [rootBytes, keyBytes, proofBytes] = [root, key, proof].map(copied);
  if (rootBytes.length !== DIGEST) throw new RangeError("a root digest has 32 bytes");
  if (keyBytes.length < 1 || keyBytes.length > 32) throw new RangeError("a key has 1 to 32 bytes");
  const answer = verifier(format, rootBytes, keyBytes, proofBytes);
  return answer === null ? null : answer.slice();
}

/**
 * What a proof shows of a key, in the map with this root digest.
 *
 * @param {Format} format
 * @param {Uint8Array} root 32 bytes
 * @param {Uint8Array} key 1 to 32 bytes
 * @param {Uint8Array} proof
 * @returns {Uint8Array | null} the key's value, 0 to 64 bytes, or null if the key is absent
 * @throws {Refused} if the proof fails a test
 * @throws {RangeError} if there is no such format, or the root digest or the key has other lengths
 * @throws {TypeError} if the root digest, the key or the proof is no Uint8Array
 */
export function verify(format, root, key, proof) {
  return ask(answerOf, format, root, key, proof);
}

/**
 * As `verify`, in the sharded map with this root digest.
 *
 * @type {typeof verify}
 */
export function verifySharded(format, root, key, proof) {
  return ask(answerOfSharded, format, root, key, proof);
}
