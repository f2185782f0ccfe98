/** An error of a call of the library. */

/**
 * The result of a call, `code`, as mars.h numbers it, and the fields of its MarsFault, 0 if they do not apply.
 * @typedef {{code: number, number: number, problem: number, expression: number, line: number, warrior: number,
 *   begin: number, end: number}} Numbers
 */

export class MarsError extends Error {
  /**
   * @param {string} message the text that `mars` prints after the name of the file
   * @param {Numbers} numbers
   */
  constructor(message, { code, number, problem, expression, line, warrior, begin, end }) {
    super(message);
    this.name = "MarsError";
    this.code = code;
    this.number = number;
    this.problem = problem;
    this.expression = expression;
    this.line = line;
    this.warrior = warrior;
    this.begin = begin;
    this.end = end;
  }

  /** The text without the line or the index, such as `2 Operation`. */
  get what() {
    return this.message.replace(/^(line|index) \d+: /, "");
  }
}
