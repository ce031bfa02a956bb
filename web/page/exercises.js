// SPDX-License-Identifier: MIT
/**
 * Whether a run solves an exercise. Each of its wants is checked against the lines of the events: `order` has patterns
 * that events match in this order, `never` one that no event matches, `last` one that the last event matches, and
 * `between` one that no event between two of the order matches. `examples/exercises/check` does the same at the shell.
 */
function checkExercise(exercise, lines, fault) {
  const results = exercise.wants.map(want => ({ words: want.words, good: !fault && isMet(want, lines) }));
  return { results, good: !fault && results.every(it => it.good) };
}

function isMet({ order = [], never, last }, lines) {
  const isLike = (pattern, line) => new RegExp(pattern, "s").test(line);
  let at = 0;
  for (const pattern of order) {
    while (at < lines.length && !isLike(pattern, lines[at])) at++;
    if (at++ >= lines.length) return false;
  }
  if (last && !isLike(last, lines.at(-1) ?? "")) return false;
  return !never || !lines.some(it => isLike(never, it));
}
