/**
 * Checks each line of a file of vectors by mst_verifier.mjs, or times it.
 *
 *     node vectors.mjs [--sharded] [--time] FILE
 *
 * A line has a format, a root digest, a key, a proof and the answer, separated by tabs. With
 * --sharded the proofs are those of sharded maps. With --time it prints the processor time of a
 * call, the mean over the lines.
 */
import { readFileSync } from "node:fs";
import process from "node:process";

import { Refused, verify, verifySharded } from "./mst_verifier.mjs";

const CALLS = 100;
const LEAST_MICROSECONDS = 20_000;

/** @param {string} word */
function bytesOf(word) {
  return word === "-" ? new Uint8Array(0) : new Uint8Array(Buffer.from(word, "hex"));
}

/** @param {Uint8Array} bytes */
function wordOf(bytes) {
  return bytes.length === 0 ? "-" : Buffer.from(bytes).toString("hex");
}

/** @param {string} line */
function vectorOf(line) {
  const [format, root, key, proof, wanted] = line.split("\t");
  const asked = [root, key, proof].map(bytesOf);
  return { format: /** @type {1 | 2} */ (Number(format)), asked, wanted };
}

/**
 * The answer as a line has it.
 *
 * @param {typeof verify} by
 * @param {ReturnType<typeof vectorOf>} vector
 */
function told(by, { format, asked: [root, key, proof] }) {
  try {
    const value = by(format, root, key, proof);
    return value === null ? "absent" : `present ${wordOf(value)}`;
  } catch (error) {
    if (error instanceof Refused) return error.test;
    throw error;
  }
}

/**
 * The processor time of a call in microseconds.
 *
 * @param {typeof verify} by
 * @param {ReturnType<typeof vectorOf>} vector
 */
function timed(by, { format, asked: [root, key, proof] }) {
  const start = process.cpuUsage();
  for (let calls = 0; ; ) {
    for (let left = CALLS; left > 0; left--, calls++) by(format, root, key, proof);
    const { user, system } = process.cpuUsage(start);
    if (user + system >= LEAST_MICROSECONDS) return (user + system) / calls;
  }
}

const words = process.argv.slice(2);
const options = words.filter((word) => word.startsWith("--"));
const [file, ...more] = words.filter((word) => !word.startsWith("--"));
if (file === undefined || more.length > 0) {
  console.error("node vectors.mjs [--sharded] [--time] FILE");
  process.exit(2);
}
const by = options.includes("--sharded") ? verifySharded : verify;
const vectors = readFileSync(file, "utf8").trimEnd().split("\n").map(vectorOf);
let failed = 0;
vectors.forEach((vector, place) => {
  const answer = told(by, vector);
  if (answer === vector.wanted) return;
  failed += 1;
  console.log(`line ${place + 1}: ${answer}, and not ${vector.wanted}`);
});
console.log(`${vectors.length - failed} vectors as wanted, ${failed} not`);
process.exitCode = failed > 0 ? 1 : 0;
if (options.includes("--time")) {
  const all = vectors.reduce((sum, vector) => sum + timed(by, vector), 0) / vectors.length;
  const bytes = vectors.reduce((sum, { asked }) => sum + asked[2].length, 0) / vectors.length;
  console.log(
    `${vectors.length} proofs of ${bytes.toFixed()} bytes: ` +
      `${all.toFixed(1)} microseconds of processor time a call`,
  );
}
