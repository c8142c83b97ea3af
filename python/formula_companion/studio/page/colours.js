// The colours of a text, by the same grammar that other editors read: a pattern for each kind of token.

/** @typedef {{name: string, match: string}} Pattern */

/** Of the beginning of a scope the class of the page. */
const CLASSES = /** @type {[string, string | null][]} */ ([
  ["comment", "comment"], ["keyword.other", "word"], ["storage.type", "defines"], ["keyword.control", "block"],
  ["support.function.builtin", "function"], ["support.function", "says"], ["constant.other.pitch", "pitch"],
  ["variable.language", "value"], ["entity.name", "called"], ["constant.numeric", "number"],
  ["keyword.operator", null], ["punctuation", null], ["invalid", "no-token"],
]);

/** @param {string} scope */
function classOf(scope) {
  const found = CLASSES.find(([begin]) => scope.startsWith(begin));
  if (!found) throw new Error(`the scope ${scope} has no colour`);
  return found[1];
}

/** Makes the mode `formula` of the editor.
 * @param {{patterns: Pattern[]}} grammar */
export function defineColours(grammar) {
  const patterns = grammar.patterns.map(({ name, match }) => ({ kind: classOf(name), match: new RegExp(match, "y") }));
  /** @param {Stream} stream */
  function token(stream) {
    if (stream.eatSpace()) return null;
    for (const { kind, match } of patterns) {
      match.lastIndex = stream.pos;
      if (match.test(stream.string) && match.lastIndex > stream.pos) {
        stream.pos = match.lastIndex;
        return kind;
      }
    }
    stream.skipToEnd();
    return null;
  }
  CodeMirror.defineMode("formula", () => ({ token, lineComment: "#", fold: "brace", closeBrackets: "()[]{}" }));
}
