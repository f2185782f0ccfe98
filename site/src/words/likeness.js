/** How similar words are, by the measure of Python's difflib, so that the advice is that of `corewar explain`. */

/** The least likeness of a word that is meant. */
const MIN_RATIO = 0.6;
/** The maximum number of names that a word is compared with. */
const MAX_CHOICES = 1000;

/** @param {string} word */
const sorted = (word) => [...word.toUpperCase()].sort().join("");

/**
 * Returns the number of letters in the blocks that two words have in common: the longest one, and those beside it.
 * @param {string} one
 * @param {string} other
 * @returns {number}
 */
function common(one, other) {
  let [size, at, to] = [0, 0, 0];
  let lengths = new Array(other.length + 1).fill(0);
  for (let i = 0; i < one.length; i++) {
    const next = new Array(other.length + 1).fill(0);
    for (let j = 0; j < other.length; j++) {
      if (one[i] === other[j]) next[j + 1] = lengths[j] + 1;
      if (next[j + 1] > size) [size, at, to] = [next[j + 1], i + 1, j + 1];
    }
    lengths = next;
  }
  if (!size) return 0;
  return size + common(one.slice(0, at - size), other.slice(0, to - size)) + common(one.slice(at), other.slice(to));
}

/**
 * Returns how similar two words are, 0 to 1.
 * @param {string} one
 * @param {string} other
 */
const ratio = (one, other) => (2 * common(one, other)) / (one.length + other.length);

/**
 * Returns how similar two words are: 1 if they have the same letters, otherwise less.
 * @param {string} word
 * @param {string} choice
 */
export const likeness = (word, choice) => (sorted(word) === sorted(choice) ? 1 : ratio(word.toUpperCase(), choice));

/**
 * Returns whether two words of three letters differ in two or three places, as LDA and DAT do.
 * @param {string} word
 * @param {string} choice
 */
function isOther(word, choice) {
  const isShort = word.length === 3 && choice.length === 3;
  return isShort && [...word].filter((letter, index) => letter !== choice[index]).length > 1;
}

/**
 * Returns at most three choices that are similar to a word, the most similar one first, as get_close_matches does.
 * @param {string} word
 * @param {string[]} choices
 */
function closest(word, choices) {
  const rated = choices.map((choice) => ({ choice, alike: ratio(choice, word) }));
  const found = rated.filter(({ alike }) => alike >= MIN_RATIO);
  found.sort((one, other) => other.alike - one.alike || (one.choice < other.choice ? 1 : -1));
  return found.slice(0, 3).map(({ choice }) => choice);
}

/**
 * Returns the choice that is most similar to a word, or undefined. The same letters in another order are most similar;
 * of equally similar choices, one with the same first letter is returned.
 * @param {string} word
 * @param {string[]} choices
 */
export function like(word, choices) {
  const upper = new Map(choices.slice(0, MAX_CHOICES).map((choice) => [choice.toUpperCase(), choice]));
  const same = [...upper.keys()].filter((choice) => sorted(choice) === sorted(word));
  const near = () => closest(word.toUpperCase(), [...upper.keys()]).filter((one) => !isOther(word.toUpperCase(), one));
  const close = same.length ? same : near();
  const best = close.filter((choice) => likeness(word, choice) === likeness(word, close[0]));
  return upper.get(best.find((choice) => choice[0] === word[0].toUpperCase()) ?? best[0]);
}
