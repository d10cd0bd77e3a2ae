// Which name of some was meant by one that is not declared.

// How many letters two texts have in common: those of the longest part that both have, and of what stands before and after it.
/**
 * @param {string} one
 * @param {string} other
 * @returns {number}
 */
function common(one, other) {
  let [length, ends, others] = [0, 0, 0];
  let row = Array(other.length + 1).fill(0);
  for (let at = 0; at < one.length; at++) {
    const next = Array(other.length + 1).fill(0);
    for (let to = 0; to < other.length; to++) {
      if (one[at] !== other[to]) continue;
      next[to + 1] = row[to] + 1;
      if (next[to + 1] > length) [length, ends, others] = [next[to + 1], at + 1, to + 1];
    }
    row = next;
  }
  if (!length) return 0;
  return length + common(one.slice(0, ends - length), other.slice(0, others - length)) + common(one.slice(ends), other.slice(others));
}

const ENOUGH = 0.75; // of the letters of both

// The name that is most like this one, or "" where none is like it.
/**
 * @param {string} name
 * @param {string[]} names
 */
export function mostLike(name, names) {
  const scores = [...names].sort().map((it) => ({ it, score: (2 * common(it, name)) / (it.length + name.length) }));
  return scores.filter(({ score }) => score >= ENOUGH).reduce((best, some) => (some.score >= best.score ? some : best), { it: "", score: 0 }).it;
}
