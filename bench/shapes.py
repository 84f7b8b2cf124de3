"""Texts that repeat one shape each: what a formatter or a linter could be slow at."""

from limits import MAX_NESTING as LEVELS

OPERATORS = (" + b", " * c", " - d", " && e", " < f", " || g")

# Words and names of letters that are not ASCII.
WORDS = ("größe", "変数名", "e\u0301", "👩‍👩‍👧")
NAMES = ("größe", "ключ", "変数名", "値")


def lines(count, line):
    """The lines that `line` makes of the numbers below `count`."""
    return "".join(line(i) for i in range(count))


def joined(count, between, part):
    """The parts that `part` makes of the numbers below `count`, with `between` between each two."""
    return between.join(part(i) for i in range(count))


def block(head, count, line):
    """A block, or an object, with the lines that `line` makes of the numbers below `count`."""
    return head + " {\n" + lines(count, line) + "}\n"


def attribute(i):
    return f"  a{i} = {i}\n"


def heredoc(text):
    return "x = <<EOT\n" + text + "EOT\n"


def block_with_heredoc(i):
    text = f"    first {i}\n      second ${{a.y[{i}]}}\n"
    return f'r "n{i}" {{\n  text = <<-EOT\n{text}  EOT\n}}\n'


def issues(i):
    """Issues of most rules."""
    output = f'output "o{i}" {{ value = lookup(a.0, "${{b}}") == [] }} // c\n'
    return f'variable "aB{i}" {{}}\n{output}'


def issues_after(text, name, these):
    """An attribute with these issues, which begin at `b`, after a text on the same line."""
    return f'{name} = ["{text}", b{these}]\n'


def nested(count):
    """Each construct inside itself, as deep as it may be, `count` times."""
    deep = LEVELS
    blocks = "".join(f'b "l{i}" {{\n' for i in range(deep)) + "x = 1\n" + "}\n" * deep
    one = [
        blocks,
        "parens = " + "(" * deep + "1" + ")" * deep + "\n",
        "lists = " + "[" * deep + "1" + "]" * deep + "\n",
        "open = " + "[\n" * deep + "1" + "\n]" * deep + "\n",
        "objects = " + "{ a = " * deep + "1" + " }" * deep + "\n",
        "calls = " + "f(" * deep + "1" + ")" * deep + "\n",
        "nots = " + "!" * deep + "true\n",
        "conditionals = " + "a ? b : " * deep + "c\n",
        "loops = " + "[for v in " * deep + "x" + " : v]" * deep + "\n",
        "indexes = " + "a[" * deep + "0" + "]" * deep + "\n",
    ]
    return "".join(one) * count


def interpolations(deep, inner):
    """Interpolations inside each other, two constructs each."""
    return '"${' * deep + inner + '}"' * deep


def lookups(deep, inner):
    """Lookups inside each other."""
    return "lookup(" * deep + inner + ", k)" * deep


def arguments(count):
    """A call with `count` arguments."""
    return "f(" + joined(count, ",", lambda i: "1") + ")"


def record(word, length, edits):
    """A record of a journal: edits of a byte each, of a text of this length."""
    rows = "".join(f"{at} 1 1\n{old}{new}\n" for at, old, new in edits)
    return f"tfrec 2 {word} {length} {len(edits)}\n{rows}end\n"


def journal(count):
    """A text and its journal. The oldest record changes the first byte. The later ones change the
    same hundred others, back and forth."""
    places = [10 + 10 * i for i in range(100)]
    length = places[-1] + 10

    records = [record("fix", length, [(0, "x", "#")])]
    letter = "a"
    for _ in range(1, count):
        new = "b" if letter == "a" else "a"
        records.append(record("fmt", length, [(at, letter, new) for at in places]))
        letter = new
    text = "#" + "".join(letter if i in places else " " for i in range(1, length))
    return text, "".join(records)


def journal_on_both_sides(count):
    """A text and its journal. The oldest record changes `count` bytes, and then `count` records
    change one byte each, between those."""
    places = [10 * i for i in range(count)]
    length = 10 * count

    records = [record("fix", length, [(at, "x", "#") for at in places])]
    records += [record("fmt", length, [(at + 5, "a", "b")]) for at in places]
    return "#    b    " * count, "".join(records)


# By name: a count, and what makes a text and its journal with it. The second size has four times
# the count.
JOURNALS = {
    "journal": (1000, journal),
    "journal-on-both-sides": (4000, journal_on_both_sides),
}


# By name: a count, and what makes a text with it. The second size has four times the count.
SHAPES = {
    # a million tokens on one line
    "one-line": (250000, lambda n: "x = [" + joined(n // 2, ", ", lambda i: str(i % 1000)) + "]\n"),
    # strings on one line with letters of two, three and four bytes, and clusters of several letters
    "one-line-wide": (
        60000,
        lambda n: "x = [" + joined(n // 2, ", ", lambda i: f'"{WORDS[i % 4]}"') + "]\n",
    ),
    # a list of a million elements, all on one line, and each on a line of its own
    "list": (250000, lambda n: "x = [" + joined(n, ", ", str) + "]\n"),
    "list-lines": (250000, lambda n: "x = [\n" + lines(n, lambda i: f"  {i},\n") + "]\n"),
    # 400,000 attributes at the top level, with names of many widths, whose = signs are aligned
    "attributes": (100000, lambda n: lines(n, lambda i: f'a{"x" * (i % 17)}{i} = {i}\n')),
    # 400,000 attributes in a block, in a variable and in locals
    "attributes-in-block": (100000, lambda n: block('resource "r" "n"', n, attribute)),
    "attributes-in-variable": (100000, lambda n: block('variable "n"', n, attribute)),
    "attributes-in-locals": (100000, lambda n: block("locals", n, attribute)),
    # attributes that are followed by comments, which are aligned too
    "attributes-with-comments": (
        100000,
        lambda n: lines(n, lambda i: f'a{i} = "{"v" * (i % 13)}" # {i}\n'),
    ),
    # an object of 400,000 elements
    "object": (100000, lambda n: block("x =", n, lambda i: f'  k{"x" * (i % 17)}{i} = {i}\n')),
    # a chain of 200,000 operators, and of 800,000
    "operators": (200000, lambda n: "x = a" + lines(n, lambda i: OPERATORS[i % 6]) + "\n"),
    # a template of 200,000 parts and of 800,000, and a heredoc of as many lines
    "template": (200000, lambda n: 'x = "' + joined(n // 2, "", lambda i: "ab ${c.d}") + '"\n'),
    "heredoc-parts": (
        100000,
        lambda n: heredoc(lines(n, lambda i: f"line {i} with ${{c.d}} in it\n")),
    ),
    # many heredocs
    "heredocs": (30000, lambda n: lines(n, block_with_heredoc)),
    # 200,000 blocks and 800,000
    "blocks": (200000, lambda n: lines(n, lambda i: f"b{i} {{\n}}\n")),
    "blocks-on-a-line": (150000, lambda n: lines(n, lambda i: f"b{i} {{ a = {i} }}\n")),
    # constructs nested as deep as they may be, everywhere
    "nested": (80, nested),
    "nested-interpolations": (
        10000,
        lambda n: lines(n, lambda i: f'a{i} = {interpolations(LEVELS // 2, "v")}\n'),
    ),
    "nested-lookups": (3000, lambda n: lines(n, lambda i: f'a{i} = {lookups(LEVELS, "v")}\n')),
    # a call with very many arguments, nested as deep as it may be
    "interpolations-around-much": (
        1000000,
        lambda n: "x = " + interpolations(LEVELS // 2 - 1, arguments(n)) + "\n",
    ),
    "lookups-around-much": (1000000, lambda n: "x = " + lookups(LEVELS - 1, arguments(n)) + "\n"),
    # 100,000 issues of each rule, and 400,000
    "issues-comments": (100000, lambda n: lines(n, lambda i: f"a{i} = 1 // why\n")),
    "issues-index": (100000, lambda n: lines(n, lambda i: f"a{i} = b.0.c\n")),
    "issues-interpolation": (100000, lambda n: lines(n, lambda i: f'a{i} = "${{var.name_{i}}}"\n')),
    "issues-equality": (100000, lambda n: lines(n, lambda i: f"a{i} = b.c == []\n")),
    "issues-lookup": (100000, lambda n: lines(n, lambda i: f"a{i} = lookup(b, c)\n")),
    "issues-naming": (100000, lambda n: lines(n, lambda i: f'data "d" "aB{i}" {{}}\n')),
    "issues-naming-locals": (100000, lambda n: block("locals", n, lambda i: f"  aB{i} = 1\n")),
    "issues-variables": (100000, lambda n: lines(n, lambda i: f'variable "a{i}" {{}}\n')),
    "issues-outputs": (100000, lambda n: lines(n, lambda i: f'output "a{i}" {{}}\n')),
    # issues of most rules in one text
    "issues-all": (20000, lambda n: lines(n, issues)),
    # a chain of issues in one expression
    "index-chain": (100000, lambda n: "x = a" + ".0" * n + "\n"),
    # the list of indexes has just doubled, which leaves the most memory unused
    "index-chain-after-doubling": (73000, lambda n: "x = a" + ".0" * n + "\n"),
    "index-after-splat": (100000, lambda n: "x = a.*" + ".0" * n + "\n"),
    "equality-chain": (100000, lambda n: "x = a" + " == []" * n + "\n"),
    # a chain after a long token: each issue begins at `b`, whose column counts the token
    "equality-after-text": (100000, lambda n: issues_after("a" * (10 * n), "x", " == []" * n)),
    "equality-after-wide-text": (100000, lambda n: issues_after("ä" * (5 * n), "x", " == []" * n)),
    # long tokens of letters with combining marks, each followed by 60 issues in its line
    "issues-after-marked-text": (
        190,
        lambda n: lines(n, lambda i: issues_after("e\u0301" * 7000, f"a{i}", ".0" * 60)),
    ),
    # 70,000 silencing comments, and 280,000; 100,000 on one line, and 400,000; one with very many
    # names
    "silenced": (
        70000,
        lambda n: lines(n, lambda i: f"# tflint-ignore: terraform_deprecated_index\na{i} = b.0\n"),
    ),
    "silenced-on-a-line": (100000, lambda n: f"x = [{'/* tflint-ignore: all */ b.0, ' * n}]\n"),
    "names-in-a-silencing-comment": (
        400000,
        lambda n: "# tflint-ignore: " + joined(n, ", ", lambda i: f"n{i % 10}") + "\na = b.0\n",
    ),
    # 100,000 runs of lines with aligned = signs, and 400,000; and runs with aligned comments
    "alignments": (100000, lambda n: lines(n, lambda i: f"a=1\nbcd{i} = 2\n\n")),
    "comment-alignments": (100000, lambda n: lines(n, lambda i: f"a=1 # x\nbcd=2 # y\n\n")),
    # each line of a run longer than the one before
    "longer-and-longer": (
        2000000,
        lambda n: lines(int((2 * n) ** 0.5), lambda i: "a" * (i + 1) + "=1\n"),
    ),
    # empty lines
    "blank-lines": (4000000, lambda n: "\n" * n),
    # line comments without issues
    "comments": (100000, lambda n: lines(n, lambda i: f"# comment number {i}\n")),
    # names with letters that are not ASCII
    "wide-names": (
        60000,
        lambda n: lines(n, lambda i: f'{NAMES[i % 4]}_{i} = "e\u0301 👩‍👩‍👧 {i}"\n'),
    ),
    # a heredoc of 4 and 16 MB, of one line and of many; a string; a comment
    "heredoc": (4000000, lambda n: heredoc("a" * n + "\n")),
    "heredoc-lines": (130000, lambda n: heredoc("a line of some text in a hered\n" * n)),
    "string": (4000000, lambda n: 'x = "' + "a" * n + '"\n'),
    "wide-string": (2000000, lambda n: 'x = "' + "ä" * n + '"\n'),
    "comment": (4000000, lambda n: "/*" + "a" * n + "*/\nx = 1\n"),
}
