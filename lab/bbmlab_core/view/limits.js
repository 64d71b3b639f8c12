/**
 * How large a text may be, as `limits.py` has it: the limits of texts that begin with their first section, and of those
 * whose first line is `limits 2`.
 *
 * @typedef {{line: string, maxSide: number, maxSteps: number}} Limits
 */

const FIRST_LIMITS = Object.freeze({ line: "", maxSide: 512, maxSteps: 65536 });
const SECOND_LIMITS = Object.freeze({ line: "limits 2", maxSide: 4096, maxSteps: 1048576 });

/** Returns the limits of a text whose first line consists of some words. @type {(words: string[]) => Limits} */
const limitsByFirstLine = (words) => (words.join(" ") === SECOND_LIMITS.line ? SECOND_LIMITS : FIRST_LIMITS);

/** Returns a sentence on the line that raises a limit, after a space; nothing if the text begins with it. */
const limitsLineHint = (what, limits) =>
  (limits === SECOND_LIMITS ? "" : ` ${what} needs \`${SECOND_LIMITS.line}\` as first line.`);

export { FIRST_LIMITS, SECOND_LIMITS, limitsByFirstLine, limitsLineHint };
