/**
 * What a proof shows, for a picture: the nodes on the way to a key, what each digest is and has to
 * be, and at which place the proof is refused. Every judgement is the verifier's. This module reads
 * what is to be drawn, and finds the place by asking the verifier of the first texts alone.
 *
 * @module
 */
import { Refused, verify } from "../../../verifiers/javascript/mst_verifier.mjs";
import { sha256 } from "../../../verifiers/javascript/sha256.mjs";

/** @typedef {import("../../../verifiers/javascript/mst_verifier.mjs").Format} Format */

/**
 * @typedef {object} Node what stands in the text of a node (docs/FORMAT.md)
 * @property {number} layer
 * @property {Uint8Array[]} keys
 * @property {Uint8Array[]} held of each key the value, in format 2 the SHA-256 of the value
 * @property {(Uint8Array | null)[]} children the digests before the first key and after each
 */

/**
 * @typedef {object} Step a text of the proof
 * @property {Uint8Array} text
 * @property {Uint8Array} digest its SHA-256
 * @property {Uint8Array | null} expected the digest that it has to be, if that can be read
 * @property {Node | null} node null where the text is not that of a node
 * @property {number} gap how many of the node's keys are below the key
 * @property {boolean} isHeld whether the node has the key
 */

/**
 * @typedef {object} Path
 * @property {Step[]} steps the texts that the proof has whole
 * @property {Uint8Array | null | undefined} claim in format 2 the value that the proof claims, or
 *     null for absence; undefined where there is none
 * @property {string | null} test the first test that the proof fails, if any
 * @property {"frame" | "claim" | number | null} place what fails it: the proof's frame, the claim,
 *     or the text of this number, from 0; the number of all texts where one is missing
 * @property {Uint8Array | null} value what an accepted proof shows: a value, or null for absence
 */

const DIGEST = 32;

/**
 * Bytes from the front; each call gives undefined once there are too few.
 *
 * @param {Uint8Array} bytes
 */
function reader(bytes) {
  let at = 0;
  const take = (/** @type {number} */ count) => {
    at += count;
    return at <= bytes.length ? bytes.subarray(at - count, at) : undefined;
  };
  const number = (/** @type {number} */ size) =>
    take(size)?.reduce((high, byte) => 256 * high + byte, 0);
  return { take, number, isAtEnd: () => at === bytes.length };
}

/** @typedef {ReturnType<typeof reader>} Reader */

/** @param {Reader} from */
function takeCounted(from) {
  const length = from.number(1);
  return length === undefined ? undefined : from.take(length);
}

/**
 * The digest of a child, null where there is none.
 *
 * @param {Reader} from
 */
function takeChild(from) {
  const flag = from.number(1);
  if (flag === 0) return null;
  return flag === 1 ? from.take(DIGEST) : undefined;
}

/**
 * @param {Format} format
 * @param {Uint8Array} text
 * @returns {Node | null} null if the bytes have not the fields of a node
 */
function readNode(format, text) {
  const from = reader(text);
  const [version, layer, count] = [from.number(1), from.number(1), from.number(2)];
  const first = takeChild(from);
  if (version !== format || layer === undefined || !count || first === undefined) return null;
  /** @type {Node} */
  const node = { layer, keys: [], held: [], children: [first] };
  for (let left = count; left > 0; left--) {
    const key = takeCounted(from);
    const held = format === 1 ? takeCounted(from) : from.take(DIGEST);
    const child = takeChild(from);
    if (key === undefined || held === undefined || child === undefined) return null;
    node.keys.push(key);
    node.held.push(held);
    node.children.push(child);
  }
  return from.isAtEnd() ? node : null;
}

/**
 * The texts that a proof has whole, and its claim.
 *
 * @param {Format} format
 * @param {Uint8Array} proof
 */
function readFrame(format, proof) {
  const from = reader(proof);
  const texts = [];
  const isOfFormat = from.number(1) === format;
  for (let left = isOfFormat ? from.number(1) ?? 0 : 0; left > 0; left--) {
    const length = from.number(4);
    const text = length === undefined ? undefined : from.take(length);
    if (text === undefined) return { texts, claim: undefined };
    texts.push(text);
  }
  if (!isOfFormat || format === 1) return { texts, claim: undefined };
  const flag = from.number(1);
  const claim = flag === 1 ? takeCounted(from) : flag === 0 ? null : undefined;
  return { texts, claim };
}

/**
 * A proof of these texts alone. In format 2 it claims that the key is absent.
 *
 * @param {Format} format
 * @param {Uint8Array[]} texts
 */
function framed(format, texts) {
  const size = texts.reduce((sum, text) => sum + 4 + text.length, 2);
  const proof = new Uint8Array(format === 2 ? size + 1 : size);
  proof.set([format, texts.length]);
  let at = 2;
  for (const text of texts) {
    new DataView(proof.buffer).setUint32(at, text.length);
    proof.set(text, at + 4);
    at += 4 + text.length;
  }
  return proof;
}

/** @param {Uint8Array} one @param {Uint8Array} other */
export function compare(one, other) {
  const at = one.findIndex((byte, place) => byte !== other[place]);
  return at < 0 || at >= other.length ? one.length - other.length : one[at] - other[at];
}

/**
 * What the verifier says: the test that fails, or the answer.
 *
 * @param {Format} format
 * @param {Uint8Array} root
 * @param {Uint8Array} key
 * @param {Uint8Array} proof
 */
function judged(format, root, key, proof) {
  try {
    return { test: null, value: verify(format, root, key, proof) };
  } catch (error) {
    if (!(error instanceof Refused)) throw error;
    return { test: String(error.test), value: null };
  }
}

/**
 * Where the proof fails a test. Its first texts, framed alone, fail P8 as long as one more is
 * needed; from the text that fails or decides the key on they do not.
 *
 * @param {string | null} test
 * @param {Uint8Array[]} texts
 * @param {(texts: Uint8Array[]) => string | null} judge what these texts alone fail
 * @returns {Path["place"]}
 */
function placeOf(test, texts, judge) {
  if (test === null) return null;
  if (["P1", "P2", "P3"].includes(test)) return "frame";
  if (test === "P10") return "claim";
  let [low, high] = [0, texts.length];
  while (low < high) {
    const middle = (low + high) >> 1;
    if (judge(texts.slice(0, middle + 1)) === "P8") low = middle + 1;
    else high = middle;
  }
  return test === "P9" ? low + 1 : low;
}

/**
 * The path that a proof shows of a key.
 *
 * @param {Format} format
 * @param {Uint8Array} root 32 bytes
 * @param {Uint8Array} key 1 to 32 bytes
 * @param {Uint8Array} proof
 * @returns {Path}
 */
export function pathOf(format, root, key, proof) {
  const { test, value } = judged(format, root, key, proof);
  const { texts, claim } = readFrame(format, proof);
  /** @type {Step[]} */
  const steps = [];
  /** @type {Uint8Array | null} */
  let expected = root;
  for (const text of texts) {
    const node = readNode(format, text);
    const found = node?.keys.findIndex((it) => compare(it, key) >= 0) ?? 0;
    const gap = found < 0 ? node?.keys.length ?? 0 : found;
    const isHeld = node !== null && gap < node.keys.length && compare(node.keys[gap], key) === 0;
    steps.push({ text, digest: sha256(text), expected, node, gap, isHeld });
    expected = node === null || isHeld ? null : node.children[gap];
  }
  const judge = (/** @type {Uint8Array[]} */ some) =>
    judged(format, root, key, framed(format, some)).test;
  return { steps, claim, test, place: placeOf(test, texts, judge), value };
}
