/**
 * The page: it takes a question, asks the replica, has the answer checked by the verifier, and
 * shows the verdict, what was told, and the picture.
 *
 * @module
 */
import { boxes, digitsOf, draw, element, FAULTS, isSame, keepAimed, spelled } from "./drawing.mjs";
import { pathOf } from "./path.mjs";

/** @typedef {import("./path.mjs").Path} Path */
/** @typedef {{ format: 1 | 2, root: Uint8Array, version: number }} Version */
/** @typedef {{ value: Uint8Array | null, proof: Uint8Array, told: Version }} Answer */

/** What a person wrote that can be no question. */
class Wrong extends Error {
  /** @param {string} field @param {string} said */
  constructor(field, said) {
    super(said);
    this.field = field;
  }
}

/** A replica that does not answer, or not in the form of an answer. */
class Unanswered extends Error {}

/** How long a replica may take, in milliseconds. */
const PATIENCE = 20_000;

/** @template {HTMLElement} E @param {string} name @returns {E} */
const at = (name) => /** @type {E} */ (document.getElementById(name));

/** @param {string} name */
const written = (name) => /** @type {HTMLInputElement} */ (at(name)).value.trim();

/** @param {string} name */
function chosen(name) {
  const one = /** @type {HTMLInputElement} */ (document.querySelector(`[name=${name}]:checked`));
  return one.value;
}

// ---- what a person writes

/**
 * The bytes of hexadecimal digits, or null if they are none.
 *
 * @param {string} digits
 */
function bytesOf(digits) {
  if (digits.length % 2 !== 0 || !/^[0-9a-f]*$/i.test(digits)) return null;
  return Uint8Array.from(digits.match(/../g) ?? [], (pair) => parseInt(pair, 16));
}

function writtenKey() {
  const isText = chosen("spelling") === "text";
  const word = /** @type {HTMLInputElement} */ (at("key")).value;
  const key = isText ? new TextEncoder().encode(word) : bytesOf(word.trim());
  if (key === null) throw new Wrong("key", "an even number of hexadecimal digits is asked for");
  if (key.length < 1 || key.length > 32) {
    throw new Wrong("key", `a key has 1 to 32 bytes, and this has ${key.length}`);
  }
  return key;
}

/**
 * The address that a field has, as of a server.
 *
 * @param {string} field
 */
function writtenAddress(field) {
  const word = written(field);
  try {
    const url = new URL(/^https?:\/\//.test(word) ? word : `http://${word}`);
    return url.origin;
  } catch {
    throw new Wrong(field, "an address such as http://127.0.0.1:8000 is asked for");
  }
}

/** @returns {Version} */
function writtenVersion() {
  const root = bytesOf(written("root"));
  if (root === null || root.length !== 32) {
    throw new Wrong("root", "64 hexadecimal digits are asked for");
  }
  return { format: written("format") === "1" ? 1 : 2, root, version: NaN };
}

/**
 * Marks the field that is wrong and goes there, or takes all marks away.
 *
 * @param {Wrong} [wrong]
 */
function mark(wrong) {
  for (const field of ["key", "replica", "root", "trusted"]) {
    const isWrong = wrong?.field === field;
    at(field).setAttribute("aria-invalid", String(isWrong));
    at(`${field}-fault`).textContent = isWrong ? String(wrong?.message) : "";
  }
  if (wrong !== undefined) at(wrong.field).focus();
}

// ---- what replicas tell

/** @param {string} address @param {string} name */
async function fetched(address, name) {
  const waiting = new AbortController();
  const clock = setTimeout(() => waiting.abort(), PATIENCE);
  try {
    const given = { cache: /** @type {const} */ ("no-store"), signal: waiting.signal };
    const answer = await fetch(`${address}/${name}`, given);
    if (!answer.ok) throw new Unanswered(`${address} answered ${answer.status}`);
    return await answer.json();
  } catch (error) {
    if (error instanceof Unanswered) throw error;
    throw new Unanswered(`${address} gives no answer`);
  } finally {
    clearTimeout(clock);
  }
}

/** @param {unknown} digits @param {string} address */
function told(digits, address) {
  const bytes = typeof digits === "string" ? bytesOf(digits) : null;
  if (bytes === null) throw new Unanswered(`what ${address} says is no answer`);
  return bytes;
}

/** @param {any} said @param {string} address @returns {Version} */
function versionIn(said, address) {
  const root = told(said?.root, address);
  const { format, version } = said;
  const isOne = (format === 1 || format === 2) && root.length === 32 && Number.isInteger(version);
  if (!isOne) throw new Unanswered(`what ${address} says is no answer`);
  return { format, root, version };
}

/** @param {string} address @param {Uint8Array} key @returns {Promise<Answer>} */
async function ask(address, key) {
  const said = await fetched(address, digitsOf(key));
  const version = versionIn(said, address);
  const value = said.value === null ? null : told(said.value, address);
  return { value, proof: told(said.proof, address), told: version };
}

// ---- what is shown

/** @param {string} verdict @param {string} text @param {string} [test] */
function say(verdict, text, test = "") {
  const line = at("verdict");
  line.dataset.verdict = verdict;
  line.dataset.test = test;
  line.textContent = text;
}

/**
 * Where a proof is refused, in words.
 *
 * @param {Path} path
 */
function placeWords({ place, steps }) {
  if (place === "frame") return "in its frame";
  if (place === "claim") return "at the claimed answer";
  return place === steps.length ? "behind its last node" : `at node ${Number(place) + 1}`;
}

/** @param {Uint8Array} key @param {Path} path @param {Uint8Array | null} value */
function sayVerdict(key, path, value) {
  const { test } = path;
  if (test !== null) {
    say("refused", `Refused by ${test}, ${placeWords(path)}: ${FAULTS[test]}.`, test);
  } else if (!isSame(path.value, value)) {
    say("refused", "Refused: the proof is good, and shows another answer than the replica gave.");
  } else if (value === null) {
    say("absent", `Checked: the map with this root digest has no key ${spelled(key)}.`);
  } else {
    say("present", `Checked: under the key ${spelled(key)} the map with this root digest has ` +
      `the value ${spelled(value)}.`);
  }
}

/** @param {Answer} answer @param {Version} trusted @param {string} source */
function showTold({ value, proof, told }, trusted, source) {
  const isTrusted = isSame(told.root, trusted.root);
  const digest = (/** @type {Uint8Array} */ bytes) => element("code", {}, digitsOf(bytes));
  const rows = [
    ["Answer", value === null ? "the key is absent" : `the value ${spelled(value)}`],
    ["Version", String(told.version)],
    ["Format", String(told.format)],
    ["Root digest", digest(told.root)],
    ["", isTrusted ? "the one that you trust" : "not the one that you trust, which is"],
    ...(isTrusted ? [] : [["", digest(trusted.root)]]),
    ["Trusted because", source],
    ["Proof", `${proof.length} bytes`],
  ];
  at("told").replaceChildren(...rows.flatMap(([name, said]) =>
    [element("dt", {}, name), element("dd", {}, said)]));
}

// ---- the question

/**
 * The root digest that the person trusts, and why.
 *
 * @returns {Promise<[Version, string]>}
 */
async function trustedVersion() {
  if (chosen("source") === "own") return [writtenVersion(), "you gave it"];
  const address = writtenAddress("trusted");
  const version = versionIn(await fetched(address, "root"), address);
  return [version, `${address} tells it, of its version ${version.version}`];
}

async function answerQuestion() {
  const [key, address] = [writtenKey(), writtenAddress("replica")];
  const [trusted, source] = await trustedVersion();
  const answer = await ask(address, key);
  const { format, root } = trusted;
  const path = pathOf(format, root, key, answer.proof);
  showTold(answer, trusted, source);
  at("result").hidden = false;
  draw(at("path"), boxes(format, root, path, answer.value));
  sayVerdict(key, path, answer.value);
}

let isAsking = false;

/** @param {Event} event */
async function onSubmit(event) {
  event.preventDefault();
  if (isAsking) return;
  isAsking = true;
  mark();
  at("result").hidden = true;
  say("asking", "Asking …");
  try {
    await answerQuestion();
  } catch (error) {
    if (error instanceof Unanswered) {
      say("unanswered", `Not checked: ${error.message}.`);
    } else {
      say("", "");
      if (!(error instanceof Wrong)) throw error;
      mark(error);
    }
  } finally {
    isAsking = false;
  }
}

function showSource() {
  const isOwn = chosen("source") === "own";
  at("own").hidden = !isOwn;
  at("other").hidden = isOwn;
}

/** Offers the addresses that this replica knows, and its format. */
async function offer() {
  const { others = [], format } = await fetched(location.origin, "root");
  const names = [location.origin, ...others].map((value) => element("option", { value }));
  at("replicas").replaceChildren(...names);
  /** @type {HTMLSelectElement} */ (at("format")).value = String(format);
}

/** @type {HTMLInputElement} */ (at("replica")).value = location.origin;
at("question").addEventListener("submit", onSubmit);
for (const one of document.querySelectorAll("[name=source]")) {
  one.addEventListener("change", showSource);
}
showSource();
keepAimed(at("path"));
await offer().catch(() => {});
