// Colours of the editor, by the repository's own TextMate grammar.

const STYLES = [
  ["comment", "comment"],
  ["string", "string"],
  ["invalid", "error"],
  ["entity.name", "def"],
  ["keyword.control.parallel", "parallel"],
  ["keyword.operator.word", "keyword"],
  ["keyword.operator", "operator"],
  ["keyword", "keyword"],
  ["storage.type", "type"],
  ["constant.language", "atom"],
  ["constant.numeric", "number"],
  ["support.function", "builtin"],
];

function styleOf(scope) {
  const style = STYLES.find(([begin]) => scope.startsWith(begin));
  return style ? style[1] : null;
}

/** A regular expression of the grammar, which is tried at one place; `(?i)` before it says that case is no matter. */
function expression(text) {
  const isFree = text.startsWith("(?i)");
  return new RegExp(isFree ? text.slice(4) : text, isFree ? "iy" : "y");
}

function rulesOf(grammar) {
  return grammar.patterns.map((pattern) => ({
    match: expression(pattern.match || pattern.begin),
    end: pattern.end ? new RegExp(pattern.end, "g") : null,
    style: styleOf(pattern.name || ""),
    captures: pattern.captures || null,
  }));
}

function matchAt(rule, line, at) {
  rule.lastIndex = at;
  return rule.exec(line);
}

/** The mode of the editor: a comment may go on over lines, all else ends on its line. */
export function modeOf(grammar) {
  const rules = rulesOf(grammar);
  const closeRule = (stream, state, rule) => {
    const match = matchAt(rule.end, stream.string, stream.pos);
    stream.pos = match ? rule.end.lastIndex : stream.string.length;
    state.open = match ? -1 : rules.indexOf(rule);
    return rule.style;
  };
  const takeCaptures = (stream, state, rule, match) => {
    let at = stream.pos;
    const parts = Object.keys(rule.captures).map((number) => {
      const begin = stream.string.indexOf(match[number], at);
      at = begin + match[number].length;
      return { begin, end: at, style: styleOf(rule.captures[number].name) };
    });
    state.parts = parts.slice(1);
    stream.pos = parts[0].end;
    return parts[0].style;
  };
  return {
    startState: () => ({ open: -1, parts: [] }),
    copyState: (state) => ({ open: state.open, parts: [...state.parts] }),
    token(stream, state) {
      if (state.open >= 0) return closeRule(stream, state, rules[state.open]);
      if (stream.sol()) state.parts = [];
      if (state.parts.length && state.parts[0].begin <= stream.pos) {
        const part = state.parts.shift();
        stream.pos = part.end;
        return part.style;
      }
      if (stream.eatSpace()) return null;
      for (const rule of rules) {
        const match = matchAt(rule.match, stream.string, stream.pos);
        if (!match || !match[0].length) continue;
        if (rule.captures) return takeCaptures(stream, state, rule, match);
        stream.pos += match[0].length;
        return rule.end ? closeRule(stream, state, rule) : rule.style;
      }
      if (!stream.match(/^[A-Za-z]\w*/)) stream.next();
      return null;
    },
    blockCommentStart: "{",
    blockCommentEnd: "}",
  };
}
