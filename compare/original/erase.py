"""The eraser: strips from a translated text what the rewrites for allocation added, and gives its tokens back."""
import difflib
import re

TOKEN = re.compile(r'''
    (?P<space>\s+|//[^\n]*|/\*.*?\*/)
  | (?P<text>b?"(?:[^"\\]|\\.)*"|b?'(?:[^'\\]|\\.)'|'[A-Za-z_][A-Za-z0-9_]*)
  | (?P<number>\d[\d_]*(?:\.\d[\d_]*)?(?:[eE][+-]?\d+)?(?:[iuf](?:8|16|32|64|size))?)
  | (?P<word>[A-Za-z_][A-Za-z0-9_]*!?)
  | (?P<mark>\.\.=|::|->|=>|==|!=|<=|>=|&&|\|\||\+=|-=|\*=|/=|\.\.|.)
''', re.X | re.S)


def tokens(text):
    """The tokens of Rust's or Rattle's text: no blanks, no comments."""
    return [m.group() for m in TOKEN.finditer(text) if m.lastgroup != 'space']


# what the eraser looks for: where these words are the item's own, they are set apart before
SOUGHT = ('?', 'Ok', 'Result', 'alloc', 'try_take')
OWN, ADDED = 'o', 'a'


def set_apart(text, marks):
    """The tokens of the text, with those that the eraser looks for set apart where no rewrite for allocation added them. marks: a letter for each character, OWN or ADDED."""
    found = [(m.group(), m.start(), m.end()) for m in TOKEN.finditer(text) if m.lastgroup != 'space']
    return ["own " + it if it in SOUGHT and set(marks[begin:end]) == {OWN} else it for it, begin, end in found]


def marked(old, new, marks):
    """The marks of `new`, which takes the place of `old` with its marks: what both have keeps its mark, the rest is added."""
    found = [ADDED] * len(new)
    pieces = [[m.span() for m in TOKEN.finditer(it)] for it in (old, new)]
    words = [[it[begin:end] for begin, end in piece] for it, piece in zip((old, new), pieces)]
    for a, b, size in difflib.SequenceMatcher(None, *words, autojunk=False).get_matching_blocks():
        for (was, _), (begin, end) in zip(pieces[0][a:a + size], pieces[1][b:b + size]):
            found[begin:end] = marks[was:was + end - begin]
    return ''.join(found)


def end_of(ts, i):
    """Where the bracket that opens at i closes."""
    depth = 0
    for j in range(i, len(ts)):
        depth += ts[j] in '([{'
        depth -= ts[j] in ')]}'
        if depth == 0:
            return j
    raise ValueError('a bracket does not close')


def answer_end(ts, i):
    """Where the < at i closes."""
    depth = 0
    for j in range(i, len(ts)):
        depth += ts[j] == '<'
        depth -= ts[j] == '>'
        if depth == 0:
            return j
    raise ValueError('a < does not close')


def erase(ts):
    """The tokens without `alloc`, `?`, `Result<..>` and `Ok(..)`.

    - a parameter `alloc: Global,`, an argument `alloc`, and `in alloc;` in a `vec!` go
    - a `?` goes; `try_take`, which is `take` that may fail, is `take`
    - `-> Result<T, AllocError>` is `-> T`, and at T = () nothing
    - `Ok(e)` is e, and at e = () nothing"""
    out, i = [], 0
    starts = lambda *words: tuple(ts[i:i + len(words)]) == words
    while i < len(ts):
        if starts('alloc', ':', 'Global', ',') or starts('in', 'alloc', ';'):
            i += 4 if ts[i] == 'alloc' else 3
        elif starts(',', 'alloc', ':', 'Global', ')'):
            i += 4
        elif starts('alloc', ',') and out[-1:] == ['(']:
            i += 2
        elif starts('alloc', ')') and out[-1:] == ['(']:
            i += 1
        elif starts('?'):
            i += 1
        elif starts('try_take'):
            out.append('take')
            i += 1
        elif starts('->', 'Result', '<') and ts[answer_end(ts, i + 2) - 2:][:2] == [',', 'AllocError']:
            j = answer_end(ts, i + 2) - 2
            value = ts[i + 3:j]
            if value != ['(', ')']:
                out += ['->', *value]
            i = j + 3
        elif starts('Ok', '('):
            j = end_of(ts, i + 1)
            if ts[i + 2:j] != ['(', ')']:
                out += erase(ts[i + 2:j])
            i = j + 1
        else:
            out.append(ts[i])
            i += 1
    return out
