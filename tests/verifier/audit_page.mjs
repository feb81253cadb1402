/**
 * Whether the picture of the audit page fits what the verifier says of each line of vectors: the
 * same answer or test, at a place where what is drawn shows the fault.
 *
 *     node audit_page.mjs FILE
 */
import { readFileSync } from "node:fs";
import process from "node:process";

import { compare, pathOf } from "../../examples/replicas/page/path.mjs";

/** @typedef {import("../../examples/replicas/page/path.mjs").Path} Path */

/** @param {string} word */
const bytesOf = (word) => new Uint8Array(word === "-" ? [] : Buffer.from(word, "hex"));

/**
 * The answer as a line has it.
 *
 * @param {Path} path
 */
function told({ test, value }) {
  if (test !== null) return test;
  if (value === null) return "absent";
  return `present ${value.length === 0 ? "-" : Buffer.from(value).toString("hex")}`;
}

/**
 * Whether the text at a place has the digest that is expected there.
 *
 * @param {Path} path
 * @param {number} at
 */
const isLinked = ({ steps }, at) =>
  steps[at].expected !== null && compare(steps[at].digest, steps[at].expected) === 0;

/**
 * Whether a key of the text at a place is not between the keys beside a gap above.
 *
 * @param {Path} path
 * @param {number} at
 */
function isOutside({ steps }, at) {
  return steps.slice(0, at).some(({ node, gap }) => {
    const [low, high] = [node.keys[gap - 1], node.keys[gap]];
    return steps[at].node.keys.some((it) =>
      (low && compare(it, low) <= 0) || (high && compare(it, high) >= 0));
  });
}

/**
 * Of each test what has to be drawn at its place.
 *
 * @type {Record<string, (path: Path) => boolean>}
 */
const IS_SHOWN = {
  P1: ({ place }) => place === "frame",
  P2: ({ place }) => place === "frame",
  P3: ({ place }) => place === "frame",
  P4: ({ place, steps }) => steps[place] !== undefined,
  P5: (path) => path.steps.length === 0 ? path.place === 0 : !isLinked(path, path.place),
  P6: ({ place, steps }) => steps[place].node.layer >= steps[place - 1].node.layer,
  P7: (path) => isOutside(path, path.place),
  P8: ({ place, steps }) => place === steps.length && steps[place - 1].node !== null,
  P9: ({ place, steps }) => steps[place] !== undefined && steps[place].expected === null,
  P10: ({ place }) => place === "claim",
};

/**
 * Whether each text before the place of a fault fits, and the place shows it.
 *
 * @param {Path} path
 */
function isShown(path) {
  const { test, place, steps } = path;
  const seen = typeof place === "number" ? place : place === "frame" ? 0 : steps.length;
  const fits = steps.slice(0, seen).every((_, at) => isLinked(path, at));
  return fits && (test === null ? place === null : IS_SHOWN[test](path));
}

let failed = 0;
const lines = readFileSync(process.argv[2], "utf8").trimEnd().split("\n");
lines.forEach((line, number) => {
  const [format, root, key, proof, wanted] = line.split("\t");
  const asked = [root, key, proof].map(bytesOf);
  const path = pathOf(/** @type {1 | 2} */ (Number(format)), asked[0], asked[1], asked[2]);
  if (told(path) === wanted && isShown(path)) return;
  failed += 1;
  console.log(`line ${number + 1}: ${told(path)} at ${path.place}, wanted ${wanted}`);
});
console.log(`${lines.length - failed} vectors as wanted, ${failed} not`);
process.exitCode = failed === 0 && lines.length > 0 ? 0 : 1;
