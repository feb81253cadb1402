/**
 * The picture of a path: a box for the root digest, one for each node, and one for the answer, with
 * arrows from each digest to the text that it is the hash of. A refusal stands in the box of what
 * fails.
 *
 * @module
 */
import { compare } from "./path.mjs";

/** @typedef {import("./path.mjs").Path} Path */
/** @typedef {import("./path.mjs").Step} Step */
/** @typedef {import("./path.mjs").Node} Node */

/**
 * What each test of docs/FORMAT.md says when it fails.
 *
 * @type {Record<string, string>}
 */
export const FAULTS = {
  P1: "the proof is not of this format",
  P2: "the proof is cut short",
  P3: "bytes are left over behind the proof",
  P4: "these bytes are not the text of a node",
  P5: "its digest is not the expected one",
  P6: "the layer of this node is not below that of the node above",
  P7: "a key of this node is not between the keys beside its gap",
  P8: "the key's gap has a child, and its node is missing",
  P9: "the node above decides the key, and this one is too many",
  P10: "the claimed answer is not what the last node holds",
};

/** @param {Uint8Array} bytes */
export function digitsOf(bytes) {
  return Array.from(bytes, (byte) => byte.toString(16).padStart(2, "0")).join("");
}

/**
 * Bytes as text, where they are such; otherwise their digits.
 *
 * @param {Uint8Array} bytes
 */
export function spelled(bytes) {
  try {
    const text = new TextDecoder("utf-8", { fatal: true, ignoreBOM: true }).decode(bytes);
    if (/^[\p{L}\p{M}\p{N}\p{P}\p{S} ]*$/u.test(text)) return `“${text}”`;
  } catch {
    // They are no text.
  }
  return `bytes ${digitsOf(bytes)}`;
}

/** @param {Uint8Array} digest */
const short = (digest) => `${digitsOf(digest).slice(0, 8)}…`;

/**
 * An element with attributes, and with texts or elements in it.
 *
 * @param {string} kind
 * @param {Record<string, string>} attributes
 * @param {(string | Element)[]} inside
 */
export function element(kind, attributes, ...inside) {
  const made = document.createElement(kind);
  for (const [name, value] of Object.entries(attributes)) made.setAttribute(name, value);
  made.append(...inside);
  return made;
}

const code = (/** @type {string} */ text) => element("code", {}, text);

/** @param {number} count @param {string} one */
const counted = (count, one) => `${count} ${one}${count === 1 ? "" : "s"}`;

// ---- the entries of a node

/**
 * What a node holds of a key.
 *
 * @param {1 | 2} format
 * @param {Uint8Array} held
 */
function heldAs(format, held) {
  return format === 1 ? `value ${spelled(held)}` : `SHA-256 of its value ${short(held)}`;
}

/**
 * A gap between keys: its child's digest.
 *
 * @param {Node} node
 * @param {number} gap
 * @param {boolean} isWay whether the key goes there
 */
function gapCell(node, gap, isWay) {
  const child = node.children[gap];
  const said = child === null ? element("span", {}, "no child") : code(short(child));
  const heads = isWay ? [element("b", {}, "the key’s gap")] : [];
  return element("li", { class: isWay ? "gap way" : "gap" }, ...heads, said);
}

/**
 * @param {1 | 2} format
 * @param {Node} node
 * @param {number} at
 * @param {boolean} isWay whether it is the key that is asked for
 */
function keyCell(format, node, at, isWay) {
  const name = element("b", {}, spelled(node.keys[at]));
  const held = element("span", {}, heldAs(format, node.held[at]));
  return element("li", isWay ? { class: "way" } : {}, name, held);
}

/** @param {number} count */
const moreCell = (count) => element("li", { class: "more" }, counted(count, "more key"));

/**
 * The entries beside the key's way, with how many more there are on each side.
 *
 * @param {1 | 2} format
 * @param {Step & { node: Node }} step
 */
function strip(format, { node, gap, isHeld }) {
  const cells = [];
  const last = isHeld ? gap + 1 : gap;
  if (gap > 1) cells.push(moreCell(gap - 1));
  if (gap > 0) cells.push(keyCell(format, node, gap - 1, false));
  cells.push(gapCell(node, gap, !isHeld));
  if (isHeld) cells.push(keyCell(format, node, gap, true), gapCell(node, last, false));
  if (last < node.keys.length) cells.push(keyCell(format, node, last, false));
  if (last + 1 < node.keys.length) cells.push(moreCell(node.keys.length - last - 1));
  return element("ul", { class: "strip" }, ...cells);
}

/**
 * All entries, one a row.
 *
 * @param {1 | 2} format
 * @param {Node} node
 */
function entries(format, node) {
  const child = (/** @type {Uint8Array | null} */ digest) =>
    digest === null ? "none" : code(digitsOf(digest));
  const rows = node.keys.map((key, at) => {
    const held = format === 1 ? spelled(node.held[at]) : code(digitsOf(node.held[at]));
    const cells = [spelled(key), held, child(node.children[at + 1])];
    return element("tr", {}, ...cells.map((cell) => element("td", {}, cell)));
  });
  const names = ["Key", format === 1 ? "Value" : "SHA-256 of its value", "Child behind it"];
  const heads = names.map((name) => element("th", { scope: "col" }, name));
  const before = ["before the first key", "", child(node.children[0])];
  const first = element("tr", {}, ...before.map((cell) => element("td", {}, cell)));
  const table = element("table", {}, element("thead", {}, element("tr", {}, ...heads)));
  table.append(element("tbody", {}, first, ...rows));
  const name = `All entries: ${counted(node.keys.length, "key")}, ${counted(
    node.children.filter((it) => it !== null).length, "child digest")}`;
  return element("details", {}, element("summary", {}, name), table);
}

// ---- boxes

/** @param {string} test @param {string} [said] */
function fault(test, said = FAULTS[test]) {
  const text = test === "" ? `Refused: ${said}.` : `Refused by ${test}: ${said}.`;
  return element("p", { class: "fault", "data-test": test }, text);
}

/**
 * What is hashed, and what the digest has to be.
 *
 * @param {Step} step
 * @param {boolean} isSeen
 */
function hashed({ text, digest, expected }, isSeen) {
  const said = element("p", {}, `SHA-256 of its ${text.length} bytes: `, code(digitsOf(digest)));
  if (!isSeen || expected === null) return [said];
  if (compare(digest, expected) !== 0) {
    return [said, element("p", {}, "expected: ", code(digitsOf(expected)))];
  }
  return [said, element("p", { class: "fits" }, "✓ the expected digest")];
}

/**
 * The box of a text. After the place where the proof is refused nothing was looked at.
 *
 * @param {1 | 2} format
 * @param {Path} path
 * @param {number} at
 */
function stepBox(format, path, at) {
  const step = path.steps[at];
  const refusedAt = typeof path.place === "number" ? path.place : path.steps.length;
  const isHere = path.test !== null && path.place === at;
  const isSeen = path.place !== "frame" && at <= refusedAt;
  const layer = step.node === null ? "no layer" : `layer ${step.node.layer}`;
  const title = element("h3", {}, `Node ${at + 1} of ${path.steps.length}: ${layer}`);
  const box = element("div", { class: "box" }, title, ...hashed(step, isSeen));
  if (isHere) box.append(fault(String(path.test)));
  if (!isSeen) box.append(element("p", {}, "not looked at"));
  if (step.node === null) {
    box.append(element("p", {}, "bytes ", code(digitsOf(step.text.subarray(0, 64)))));
  } else {
    box.append(strip(format, /** @type {Step & { node: Node }} */ (step)));
    box.append(entries(format, step.node));
  }
  if (isHere) box.classList.add("refused");
  else if (!isSeen) box.classList.add("unseen");
  return box;
}

/**
 * The box of what stands in place of a text that is missing.
 *
 * @param {string} test
 */
function missingBox(test) {
  const title = element("h3", {}, "No further node");
  const box = element("div", { class: "box missing refused" }, title);
  // Of no text at all the empty map's digest is expected.
  box.append(test === "P5" ? fault(test, "without a node the map would be empty") : fault(test));
  return box;
}

/** @param {1 | 2} format @param {string} test */
function frameBox(format, test) {
  const title = element("h3", {}, `The frame of a proof of format ${format}`);
  return element("div", { class: "box refused" }, title, fault(test));
}

/** @param {Uint8Array | null} value */
const answered = (value) => (value === null ? "the key is absent" : `the value ${spelled(value)}`);

/**
 * The box of the answer: what the proof shows, and whether the replica said the same.
 *
 * @param {Path} path
 * @param {Uint8Array | null} told
 */
function answerBox(path, told) {
  const box = element("div", { class: "box answer" }, element("h3", {}, "Answer"));
  if (path.test === "P10") {
    const claim = path.claim === undefined ? "no answer" : answered(path.claim);
    box.append(element("p", {}, `The proof claims ${claim}.`), fault("P10"));
  } else {
    box.append(element("p", {}, `The proof shows: ${answered(path.value)}.`));
    if (!isSame(path.value, told)) {
      box.append(fault("", `the replica said ${answered(told)}`));
    }
  }
  if (box.querySelector(".fault") !== null) box.classList.add("refused");
  return box;
}

/** @param {Uint8Array | null} one @param {Uint8Array | null} other */
export function isSame(one, other) {
  return one === null || other === null ? one === other : compare(one, other) === 0;
}

/**
 * The boxes of a path, from the root digest down.
 *
 * @param {1 | 2} format
 * @param {Uint8Array} root
 * @param {Path} path
 * @param {Uint8Array | null} told the answer that came with the proof
 */
export function boxes(format, root, path, told) {
  const title = element("h3", {}, "Root digest that you trust");
  const digest = element("p", {}, code(digitsOf(root)));
  const made = [element("div", { class: "box root" }, title, digest)];
  if (path.place === "frame") made.push(frameBox(format, String(path.test)));
  made.push(...path.steps.map((_, at) => stepBox(format, path, at)));
  if (path.place === path.steps.length) made.push(missingBox(String(path.test)));
  if (path.test === null || path.test === "P10") made.push(answerBox(path, told));
  return made;
}

// ---- arrows

const SVG = "http://www.w3.org/2000/svg";

/** @param {string} kind @param {Record<string, string>} attributes */
function shape(kind, attributes) {
  const made = document.createElementNS(SVG, kind);
  for (const [name, value] of Object.entries(attributes)) made.setAttribute(name, value);
  return made;
}

/**
 * An arrow to the next box. It is put in place by `aim`.
 *
 * @param {Element} next
 */
function arrow(next) {
  const isOther = next.querySelector('.fault[data-test="P5"]') !== null;
  const drawn = shape("svg", { class: "link", "aria-hidden": "true" });
  if (next.matches(".unseen")) drawn.classList.add("unseen");
  else if (isOther || next.matches(".missing")) drawn.classList.add("broken");
  drawn.append(shape("path", {}), shape("path", { class: "head" }));
  return drawn;
}

/**
 * Draws each arrow from the way of the box above it, or from its middle, to the box below.
 *
 * @param {Element} list
 */
function aim(list) {
  for (const drawn of list.querySelectorAll("svg.link")) {
    const { left, width, height } = drawn.getBoundingClientRect();
    const above = drawn.parentElement?.previousElementSibling;
    const from = above?.querySelector(".strip .way")?.getBoundingClientRect();
    const start = from === undefined ? width / 2 : from.left + from.width / 2 - left;
    const [line, head] = drawn.children;
    const [end, tip] = [Math.min(start, width - 24), height - 2];
    const bend = `${start} ${height / 2} ${end} ${height / 2} ${end} ${tip - 8}`;
    line.setAttribute("d", `M${start} 0 C${bend}`);
    head.setAttribute("d", `M${end - 6} ${tip - 9} L${end + 6} ${tip - 9} L${end} ${tip} z`);
  }
}

/**
 * Puts boxes into a list, with arrows between them.
 *
 * @param {Element} list
 * @param {Element[]} all
 */
export function draw(list, all) {
  list.replaceChildren(...all.map((box, at) =>
    element("li", {}, ...(at === 0 ? [box] : [arrow(box), box]))));
  aim(list);
}

/**
 * Keeps the arrows in place while the list changes its width.
 *
 * @param {Element} list
 */
export function keepAimed(list) {
  new ResizeObserver(() => aim(list)).observe(list);
}
