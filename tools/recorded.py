"""What tools/record and beside/compare share: cases made from a seed, the Rust's answers to them, and the file that the program replay reads.
The file's layout stands at the top of crates/replay/src/main.rt; a case's text is bytes, and may be ill-formed UTF-8."""
import itertools
import os
import subprocess
import sys
import tempfile

ROOT = os.path.normpath(os.path.join(os.path.dirname(os.path.abspath(__file__)), '..'))
GRAMMARS = os.path.join(ROOT, 'tools', 'grammars')
MARK = b'replay 2'
MOST = 65535  # bytes of a case
BUFFER = 4096  # bytes of the buffer that replay lends
TOKENS = 4000  # tokens that replay has room for

# in the order of the Rust's enums, which is 01's numbering; the codes are the Rust's own, and replay maps ours to them
KINDS = ('Enum Extern Grammar Match Else If Mut Pub In Type Where For Dyn Use Escape Id MacroId Lifetime StringLiteral CharLiteral RegexLiteral Ampersand '
         'BangEquals BangTilde Colon ColonColon Comma DotDot Equals EqualsEquals EqualsGreaterThanCode EqualsGreaterThanQuestionCode '
         'EqualsGreaterThanLookahead EqualsGreaterThanLookbehind Hash GreaterThan LeftBrace LeftBracket LeftParen LessThan Lookahead Lookbehind '
         'MinusGreaterThan Plus Question RightBrace RightBracket RightParen Semi Star TildeTilde Underscore Bang ShebangAttribute').split()
CODES = ('UnrecognizedToken UnterminatedEscape UnterminatedAsciiEscape UnrecognizedEscape UnterminatedStringLiteral UnterminatedCharacterLiteral '
         'UnterminatedAttribute UnterminatedCode ExpectedStringLiteral UnterminatedBlockComment NotUtf8').split()
KIND_NUMBER = {name.encode(): n for n, name in enumerate(KINDS)}
CODE_NUMBER = {name.encode(): n for n, name in enumerate(CODES, 1)}
# the listed difference: where the Rust panics on a lone last backslash, the oracle says so by this name
CODE_NUMBER[b'TrailingBackslash'] = 16

# 01's examples, with their shift or idx0
EXAMPLE_TEXTS = [(t, 0) for t in ('', '##', '#![\nx', 'r#_', 'r##ab<', 'r#1', 'r#"a"b"#', '=>r#"a"b"#;', "=>'a'", "=>'a';", '/*/', '/*/**/*/', '=>?', "''",
                                  '#![a]xb=>c;')] + [('.', 7)]
EXAMPLE_EXPANSIONS = ['\\x7F', '\\xFF', '\\x', '\\x4', '\\', '\\x\\', '\\x4\\', '\\q\\']

# every text over these up to a length; with what stands before it
ALPHABETS = [
    ('', ['#', '!', '[', ']', '"', '\n', 'x'], 4),
    ('#![', ['[', ']', '"', '\\', '\n', 'é', '#'], 4),
    ('#![', ['[', ']', '"', "'", '\\', '\n', '\r', '\r\n', 'é', '#'], 3),
    ('', ['/', '*', '\n', 'a'], 6),
    ('', ['/', '*', '\n', '\r', '\r\n', 'a'], 4),
    ('', ['r', '#', '"', 'a', '_', '1'], 4),
    ('r#', ['#', '"', '\\', 'é'], 5),
    ('r#"', ['#', '"', '\r', '\r\n'], 4),
    ('', ["'", '\\', 'a', '"', '`', 'é'], 4),
    ('', ["'", '\\', 'a', '"', '`', '\n', '\r', '\r\n'], 3),
    ('"', ['\\', 'a', '"', '\r', '\r\n'], 4),
    ('=>', ["'", '"', '\\', 'a', '(', ')', ','], 4),
    ('=>', ["'", '"', '\\', '\r', '\r\n', 'a', '(', ')', ','], 3),
    ('=>', ['r', '#', '"', 'a', ';'], 5),
    ('=>', ['/', '*', '\n', '[', ']', "'"], 4),
    ('=>//', ['/', '*', '\n', '\r', '\r\n', '[', ']', ';'], 3),
    ('=>', ['/', '*', '\n', '\r', '\r\n', '[', ']', "'", ';'], 3),
    ('use', [' ', '{', '}', ';', "'", 'r', '#', '_'], 3),
    ('', ['=', '>', '?', '@', 'L', '!', '~'], 4),
    ('', ['.', '-', '>', ':', '<', '+', '$', '&'], 3),
    ('', ['use', 'in', 'r', '#', '_', '<', ' ', '1', 'dyn'], 3),
    ('', ['é', '\u0301', '\u2028', '\u3000', '\u00b7', '\U0001d4b3', '\U0001f600', "'", 'r', '#', '<'], 3),
    ('\'', ['é', '\u0301', "'", '\\', '\u00b7', '_'], 3),
]
# ill-formed UTF-8 too: bytes
BYTES = [b'a', b'\xc3', b'\xa9', b'\xe2', b'\x80', b'\xa8', b'\xf0', b'\x9f', b'\x98', b'\xed', b'\xa0', b'\xf4', b'\x90', b'\xc0', b'\xff', b'"']
ESCAPED = ['\\', 'x', '7', 'F', 'n', 'q', '0', '"', 'é']
ESCAPES = ['\\n', '\\r', '\\t', '\\0', '\\\\', '\\"', '\\x41', '\\x7f', '\\x0A', 'a', 'é', '\U0001f600', '"']
# the ends of the digits, and what stands beside them
DIGITS = ['/', '0', '7', '8', '9', ':', '@', 'A', 'F', 'G', '`', 'a', 'f', 'g', 'é']
ESCAPED_FURTHER = ['\\', 'x', 'r', 't', '8', 'g', 'a', 'f', '9', '\u2028', '\U0001f600', '\n']

TRICKY = ['"', "'", '\\', '#', '!', '[', ']', '(', ')', '{', '}', '/', '*', 'r', '=', '>', '@', '?', '`', '\n', ';', ',', '_', '.', '~', '-', '<', 'é', '\u0301', '\u2028',
          '\u3000', '\U0001d4b3', '\U0001f600', '\x00', '$', '/*', '*/', '//', '#![', 'r#"', '"#', '=>', "'\\", "''", 'use']
STRAY = [b'\x80', b'\xc3', b'\xff', b'\xed\xa0\x80', b'\xf0\x9f', b'\xc0\xaf', b'\xe2\x80', b'\xf4\x90\x80\x80']


class Pick:
    """Numbers from a seed, the same under every Python."""

    def __init__(self, seed):
        self.state = (seed * 2862933555777941757 + 3037000493) % 2 ** 64
        self.below(2)

    def below(self, n):
        self.state = (self.state * 6364136223846793005 + 1442695040888963407) % 2 ** 64
        return (self.state >> 33) * n >> 31

    def of(self, things):
        return things[self.below(len(things))]

    def between(self, least, most):
        return least + self.below(most - least + 1)

    def one_in(self, n):
        return self.below(n) == 0


class Texts:
    """Grammar-like texts, damaged copies, and texts over the alphabets, from a seed."""

    def __init__(self, seed):
        self.pick = Pick(seed)
        self.grammars = []
        for name in sorted(os.listdir(GRAMMARS)):
            with open(os.path.join(GRAMMARS, name), encoding='utf-8', newline='') as f:
                self.grammars.append(f.read())

    def many(self, least, most, part, between=''):
        return between.join([part() for _ in range(self.pick.between(least, most))])

    def gap(self):
        return self.pick.of([' ', ' ', ' ', '\n', '\t', '', '\u3000', '\u2028', '/**/', '/*/ */', '/*/**/*/', '//x\n', '/* " */', '// \'\n'])

    def word(self):
        return self.pick.of(['a', 'Expr', 'x_1', '_', 'r', 'rr', 'r#type', 'r#_', 'r##ab', 'é', 'naïve', '\U0001d4b3y', 'use_', 'in', 'match', 'enum', 'dyn', 'mut', 'pub', 'if', 'else', 'type', 'where', 'for', 'extern', 'L', 'R', 'T'])

    def quoted(self):
        of = self.pick.of
        inside = self.many(0, 3, lambda: of(['a', '\\"', '\\\\', "'", 'é', '}', ']', '#', '\\n', '//', '\n']))
        return of(['"%s"' % inside, '"%s"' % inside, "'%s'" % inside.replace("'", "\\'"), '`%s`' % inside, "'a", "'a'", "'\\''", "'_", "'é'", '\'\u0301\''])

    def regex(self):
        pick = self.pick
        hashes = '#' * pick.below(4)
        inside = self.many(0, 3, lambda: pick.of(['a', '\\', '"', '"#', '"##', '[0-9]', '#', '\n', 'é', '(']))
        return 'r' + hashes + '"' + inside + '"' + '#' * max(0, len(hashes) + pick.of([0, 0, 0, 0, -1, 1]))

    def code(self, depth=2):
        pick = self.pick

        def piece():
            n = pick.below(12)
            if n < 2:
                return self.quoted()
            if n == 2:
                return self.regex()
            if n == 3 and depth > 0:
                return pick.of('([{') + self.code(depth - 1) + pick.of(')]}')
            if n == 4:
                return self.gap()
            return pick.of(['a', 'b', '.', '::', '+', ' ', '<>', '/', '*', '-', "'", "'a", "'\\''", 'r', 'xr#"a"', 'r#a', '=>', '|', 'é', '1', 'str', '\\', '#'])
        return self.many(0, 5, piece)

    def symbol(self, depth=2):
        pick = self.pick
        n = pick.below(12)
        if n < 3:
            return self.word()
        if n == 3:
            return self.quoted()
        if n == 4:
            return self.regex()
        if n == 5 and depth > 0:
            return '<%s%s%s>' % (pick.of(['', 'a:', 'mut a:', 'é :']), self.symbol(depth - 1), pick.of(['', '?', '*', '+']))
        if n == 6 and depth > 0:
            return '(' + self.many(0, 2, lambda: self.symbol(depth - 1), ' ') + ')' + pick.of(['', '?', '*', '+'])
        if n == 7 and depth > 0:
            return self.word() + '<' + self.many(0, 2, lambda: self.symbol(depth - 1), ',') + '>'
        if n == 8:
            return pick.of(['@L', '@R', '!', '_', '@', '..', '.', '->', '-', '~~', '~', '&', '==', '!=', '!~', '::', '$'])
        return pick.of(['"+"', '"x"', 'a', 'T?', 'E*'])

    def action(self):
        return self.pick.of(['=>', '=>', '=>?', '=> ', '=>@L', '=>@R', '=>@']) + self.code() + self.pick.of([',', ';', ')', ']', '}', ''])

    def attribute(self):
        return '#' + self.pick.of(['!', '!', '', '! ']) + '[' + self.many(0, 4, lambda: self.pick.of(['a', '(', ')', '[', ']', '[x]', '"]"', '"\\""', '"', ' ', '=', 'é', '\n', "']'"])) + self.pick.of([']', ']', ']', '', ']]'])

    def item(self):
        pick, gap = self.pick, self.gap
        n = pick.below(10)
        if n == 0:
            return self.attribute() + pick.of(['', 'x', '\n', 'é', '"', '#'])
        if n == 1:
            return 'use' + gap() + self.code() + pick.of([';', ';', ','])
        if n == 2:
            return 'grammar' + pick.of(['', "<'a>", '<T>', '(x: &\'a str)']) + ';'
        if n == 3:
            return gap() + self.quoted() + gap()
        if n == 4:
            return gap() + self.regex() + gap()
        if n < 7:
            return self.many(1, 3, self.symbol, gap()) + gap() + self.action()
        return pick.of(['pub ', '', '']) + self.word() + pick.of([': ', '<T>: ', ' = ', ': &\'a T = ']) + self.many(0, 3, self.symbol, ' ') + gap() + self.action()

    def grammar_like(self):
        return self.many(1, 2, self.item, self.gap())

    def damaged(self, text):
        """The text with a character deleted, doubled, replaced or put in, or cut off."""
        pick = self.pick
        at = pick.below(len(text) + 1)
        n = pick.below(9)
        if n < 2:
            return text[:at] + text[at + 1:]
        if n == 2:
            return text[:at] + text[at:at + 1] * 2 + text[at + 1:]
        if n < 5:
            return text[:at] + pick.of(TRICKY) + text[at + 1:]
        if n < 8:
            return text[:at] + pick.of(TRICKY) + text[at:]
        return text[:at]

    def stretch(self):
        """Some lines of a grammar."""
        lines = self.pick.of(self.grammars).splitlines(True)
        start = self.pick.below(len(lines))
        return ''.join(lines[start:start + self.pick.between(1, 5)])

    def copy(self):
        """A damaged copy of a stretch of a grammar, as bytes."""
        text = self.stretch()
        for _ in range(self.pick.between(1, 2)):
            text = self.damaged(text)
        return self.stray(text.encode(), 12)

    def stray(self, data, seldom):
        """The bytes, and seldom with ill-formed ones among them."""
        if self.pick.one_in(seldom):
            at = self.pick.below(len(data) + 1)
            return data[:at] + self.pick.of(STRAY) + data[at + self.pick.below(2):]
        return data

    def over(self, alphabet, least, most):
        of = self.pick.of
        return ''.join([of(alphabet) for _ in range(self.pick.between(least, most))])

    def spelled(self):
        """A text over one of the alphabets, longer than the ones that are tried all."""
        before, alphabet, most = self.pick.of(ALPHABETS)
        return (before + self.over(alphabet, most - 1, most + 5)).encode()

    def point(self):
        """Any code point, in one of the places where it matters which it is."""
        n = self.pick.below([0x250, 0x3100, 0x20000, 0x10F800][self.pick.below(4)])
        c = chr(n if n < 0xD800 else n + 0x800)
        return self.pick.of(['%s', 'a%s<', "'%s'", "'a%s", "'%s", 'r#%s', '=>r#%s;', "=>'%s';", '#![%s]%s', '/*%s*/%s', '_%s', 'use%s;']).replace('%s', c).encode()

    def random(self):
        text = self.grammar_like()
        if self.pick.one_in(3):
            text = self.damaged(text)
        return self.stray(text.encode(), 40)

    def shift(self, length):
        pick = self.pick
        if not pick.one_in(12):
            return 0
        return pick.of([1, 7, 100, 100000, 2 ** 32, 2 ** 64 - 1 - length, 2 ** 64 - 1 - length - pick.below(9)])

    def with_shift(self, text):
        return text, self.shift(len(text))

    def escaped(self):
        text = self.over(self.pick.of([ESCAPED, ESCAPED_FURTHER, ESCAPES, ESCAPES, ESCAPES]), 1, 10)
        n = self.pick.below(8)
        if n < 2:
            text = self.damaged(text)
        elif n == 2:
            text += '\\x' + self.over(DIGITS, 2, 3)
        elif n == 3:
            text += '\\' + chr(self.pick.below(256))
        return self.stray(text.encode(), 20)

    def in_buffer(self, text):
        """An expansion's case: text, idx0, place in the buffer, bytes that the buffer has beyond the expansion."""
        return text, self.shift(len(text)), self.pick.of([0, 1, 2, 5, 130]), self.pick.of([0, 0, 1, 3, 40])


def all_up_to(alphabet, most):
    for n in range(most + 1):
        yield from itertools.product(alphabet, repeat=n)


def edges(oracle):
    """Code points at the ends of the ranges of the three Unicode properties."""
    out = subprocess.run([oracle, 'unicode'], stdout=subprocess.PIPE, check=True).stdout.decode()
    have = {int(line.split()[0], 16): line.split()[1:] for line in out.splitlines()}
    ends = set()
    for n, what in have.items():
        for m in (n - 1, n + 1):
            if have.get(m) != what and 0 <= m < 0x110000 and not 0xD800 <= m < 0xE000:
                ends |= {n, m}
    return sorted(ends)


def build_oracle(folder):
    """Builds the Rust behind its protocol into a folder, and answers the program's path."""
    source = os.environ.get('TEYK_ORACLE', os.path.join(ROOT, '..', 'shared', 'oracle'))
    build = os.path.join(source, 'build')
    if not os.path.exists(build):
        sys.exit('no %s: the variable TEYK_ORACLE names the folder of the oracle' % build)
    subprocess.run([build, folder], check=True, stdout=sys.stderr)
    return os.path.join(folder, 'oracle')


def with_oracle(given, work):
    """Calls work with the oracle that is given, or with one that is built for it and removed again."""
    if given:
        return work(given)
    with tempfile.TemporaryDirectory() as folder:
        return work(build_oracle(folder))


def digits(n):
    """A number to the base 128, the highest digit first, with 128 added to all but the last."""
    out = [n % 128]
    while n >= 128:
        n //= 128
        out.append(128 + n % 128)
    return bytes(reversed(out))


def case_of(data, values):
    """A case of the file: the lengths of its bytes and of its numbers, and both."""
    numbers = bytes(values) if max(values) < 128 else b''.join([digits(n) for n in values])
    if len(data) + len(numbers) > MOST:
        sys.exit('a case is too long')
    return len(data).to_bytes(2, 'little') + len(numbers).to_bytes(2, 'little') + data + numbers


def ask(oracle, mode, cases):
    """The lines that the oracle answers to cases, each a text and a number."""
    data = b''.join([b'%d %d\n%s\n' % (len(case[0]), case[1], case[0]) for case in cases])
    return subprocess.run([oracle, mode], input=data, stdout=subprocess.PIPE, check=True).stdout.split(b'\n')[:-1]


def text_answers(oracle, cases):
    """Each case, a text and a shift, as its bytes and its numbers, with the Rust's answer; None where the Rust panics."""
    answers, flat, at = [], [], 0
    kind = KIND_NUMBER
    for line in ask(oracle, 'count', cases):
        word = line.split()
        first = word[0]
        if first[0] < 58:  # a digit
            flat += kind[word[2]], int(first), int(word[1]), int(word[3]), int(word[4])
            continue
        text, shift = cases[at]
        at += 1
        if first == b'panic':
            answers.append(None)
            flat = []
            continue
        if first == b'end':
            code, place, advances, cursor = 0, 0, int(word[2]), int(word[4]) - shift
        elif first == b'error':
            code, place, advances, cursor = CODE_NUMBER[word[1]], int(word[3]), int(word[5]), int(word[7]) - (0 if word[1] == b'NotUtf8' else shift)
        else:
            sys.exit('the oracle says ' + line.decode())
        if len(flat) > 5 * TOKENS:
            sys.exit('a text has too many tokens')
        answers.append((text, [shift, len(flat) // 5, code, place, advances, cursor] + flat))
        flat = []
    if at != len(cases):
        sys.exit('the oracle answered %d of %d texts' % (at, len(cases)))
    return answers


def expansion_answers(oracle, cases):
    """Each case, a text, idx0, a place and what the buffer has beyond, as its bytes and its numbers, with the Rust's answer; None where the Rust panics."""
    answers = []
    lines = ask(oracle, 'expand', cases)
    if len(lines) != len(cases):
        sys.exit('the oracle answered %d of %d expansions' % (len(lines), len(cases)))
    for (text, idx0, place, beyond), line in zip(cases, lines):
        word = line.split()
        if word[0] == b'panic':
            answers.append(None)
            continue
        n = 0
        if word[0] == b'error':
            answer = [CODE_NUMBER[word[1]], int(word[3]), 0, 0, 0, 0]
        else:
            expanded = bytes.fromhex(word[1].decode()) if len(word) > 1 else b''
            if word[0] == b'written':
                n = len(expanded)
                answer = [0, 0, 2, place, place + n, n, *expanded]
            else:
                answer = [0, 0, 1, 0, len(expanded), 0, *expanded]
        if place + n + beyond > BUFFER:
            sys.exit('an expansion needs too large a buffer')
        answers.append((text, [idx0, place, place + n + beyond] + answer))
    return answers


def file_of(*parts):
    """The file that replay reads: its head, then texts, expansions, planted texts, planted expansions, each as its bytes and its numbers."""
    return b''.join([case_of(MARK, [len(part) for part in parts])] + [case_of(*case) for part in parts for case in part])
