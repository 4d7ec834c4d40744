"""Mistakes that people make, each with a part of the sentence by which it is explained, so that no two kinds of them look alike.

`tools/explain --mistakes` runs the program on each: it has to refuse it by the line that is wanted here.
"""

MOJOM = '''module t;
enum Color { RED, GREEN = 5 };
union U { int32 n; string s; };
struct Point { int32 x; int32 y; };
interface J { Hi(uint32 n); };
interface P {
  Ping(uint32 n);
  Ask(string s) => (int32 r);
  Give(handle h);
  Get(pending_associated_receiver<J> j);
  Lend(uint32 n) => (handle h);
  Draw(Point p, Color c, array<uint8, 2> pair, map<string, bool> m, U? u, bool b, int8? small);
};
'''
FRONT = 'seqs 1\njoin 0 0 x y\n'

# Lines of scripts behind FRONT that have no form, each with a part of its sentence.
LINES = (
    ('', 'there are no empty lines'),
    ('# both ends', 'there are no comments'),
    ('// both ends', 'there are no comments'),
    ('0: pipe a b # both ends', 'there are no comments'),
    ('0: pipe a b ', 'words have one blank between them'),
    (' 0: pipe a b', 'words have one blank between them'),
    ('0: pipe  a b', 'words have one blank between them'),
    ('0: pipe a b\r', 'carriage return'),
    ('0:\tpipe a b', 'not by a tab'),
    ('0: pipe\u00a0a b', 'this one is another'),
    ('0: pipe a\udcff b', 'a script is UTF-8'),
    ('1: pipe a b', 'there is one sequence, 0'),
    ('00: pipe a b', 'a line begins with the number of its sequence'),
    ('a: pipe b c', 'a sequence is a number'),
    ('0 pipe a b', 'behind the number of the sequence stands `:`'),
    ('0:pipe a b', 'stands a blank'),
    ('0:', 'a command is lacking'),
    ('0: 0: pipe a b', 'behind the number of the sequence and `:` stands a command'),
    ('pipe a b', 'stands behind the number of its sequence'),
    ('0: join 0 0 a b', 'is a line of the setup'),
    ('0: pype a b', '`pipe` may be meant'),
    ('0: PIPE a b', '`pipe` may be meant'),
    ('0: send x#0 t.P.Ping (7)', 'no command has this name'),
    ('0: pipe a', 'a word is lacking: a name'),
    ('0: pipe a b c', 'stand 2 words, and no more'),
    ('0: pipe A b', 'a name is a small letter'),
    ('0: pipe 1a b', 'a name is a small letter'),
    ('0: pipe a-b c', 'a name is a small letter'),
    (f'0: pipe {33 * "a"} b', 'at most 32 in all'),
    ('0: mint handle a', 'here stands `shared_buffer` or `platform`'),
    ('0: bind x#0 remote t.P', 'here stands a name alone'),
    ('0: bind x Remote t.P', 'here stands `remote` or `receiver`'),
    ('0: bind x remote t::P', 'here stands the full name of an interface'),
    ('0: bind x remote', 'a word is lacking: the full name of an interface'),
    ('0: associate x remote t.J', 'a word is lacking: a name'),
    ('0: attach p 1', 'there is one sequence, 0'),
    ('0: attach p', 'a word is lacking: the number of a sequence'),
    ('0: call x t.P.Ping (7)', 'here stands an endpoint, as `x#0`'),
    ('0: call x#00 t.P.Ping (7)', 'its id without leading zeros'),
    ('0: call x#4294967296 t.P.Ping (7)', 'below 4294967296'),
    ('0: call x#0 Ping (7)', 'here stands the full name of a method'),
    ('0: call x#0 t.P.Ping', 'a word is lacking: a value'),
    ('0: call x#0 t.P.Ping (7, 8)', 'a blank outside of a string ends a value'),
    ('0: call x#0 t.P.Give (%0) Y', 'here stands a name alone'),
    ('0: take x#0', 'here stands a name alone'),
    ('0: take x A', 'a name is a small letter'),
    ('0: raw x 0xff', 'bytes are pairs of hexadecimal digits'),
    ('0: raw x FF', 'in lower case'),
    ('0: raw x fff', 'bytes are pairs of hexadecimal digits'),
    ('0: raw x', 'a word is lacking: bytes in hexadecimal'),
    ('0: answer r (7)', 'here stands the full name of a method'),
    ('0: call-at x#0 t.P.Ping (7)', 'here stands a moment'),
    ('0: call-at 05 x#0 t.P.Ping (7)', 'without leading zeros'),
    ('0: call-at +5 x#0 t.P.Ping (7)', 'here stands a moment'),
    ('0: call-at -0 x#0 t.P.Ping (7)', 'here stands a moment'),
    ('0: call-at 9223372036854775808 x#0 t.P.Ping (7)', 'a number of 64 bits'),
    ('0: call-at 5 x t.P.Ping (7)', 'here stands an endpoint, as `x#0`'),
    ('0: answer-at r t.P.Ask (7)', 'here stands a moment'),
    ('0: query x', 'here stands an endpoint, as `x#0`'),
    ('0: query x#0 1', 'stands one word, and no more'),
    ('0: require x#0', 'a word is lacking: a version'),
    ('0: require x#0 v2', 'here stands a version'),
    ('0: require x#0 4294967296', 'below 4294967296'),
    ('0: flush x#0', 'here stands a name alone'),
    ('0: flush x 1', 'stands one word, and no more'),
    ('0: pause x 1', 'here stands a name alone'),
    ('0: pause x y', 'a word is lacking: the number of a flush'),
    ('0: pause x y 01', 'here stands the number of a flush'),
    ('0: data a b', 'here stands how many bytes the data pipe holds'),
    ('0: data 16', 'a word is lacking: a name'),
    ('0: data 4k a b', 'here stands how many bytes the data pipe holds'),
    ('0: data 4294967296 a b', 'below 4294967296'),
    ('0: put x 0x01', 'bytes are pairs of hexadecimal digits'),
    ('0: put x', 'a word is lacking: bytes in hexadecimal'),
    ('0: put_all x 01', '`put-all` may be meant'),
    ('0: get x', 'a word is lacking: how many bytes'),
    ('0: get x ff', 'here stands how many bytes'),
    ('0: get-all x -1', 'here stands how many bytes'),
    ('0: begin-put x 4', 'stands one word, and no more'),
    ('0: end-put x', 'a word is lacking: bytes in hexadecimal'),
    ('0: begin-get x 4', 'stands one word, and no more'),
    ('0: end-get x', 'a word is lacking: how many bytes'),
    ('0: close', 'a word is lacking: a name, or an endpoint'),
    ('0: close x y', 'stands one word, and no more'),
    ('auto 0 t.P.Ask', 'a word is lacking: a value'),
    ('auto 0 t.P.Ask (7) a', 'stand 3 words, and no more'),
    ('auto 1 t.P.Ask (7)', 'there is one sequence, 0'),
    ('join 0 1 a b', 'there is one sequence, 0'),
    ('join a b', 'here stands the number of a sequence'),
)

# Whole scripts: the line that is refused, and why.
SCRIPTS = (
    ('', '1: BadLine', 'the first line is `seqs K`'),
    ('seqs 0\n', '1: BadLine', 'the first line is `seqs K`'),
    ('seqs 17\n', '1: BadLine', 'the first line is `seqs K`'),
    ('seqs 02\n', '1: BadLine', 'the first line is `seqs K`'),
    ('seqs 2 \n', '1: BadLine', 'the first line is `seqs K`'),
    ('0: pipe a b\n', '1: BadLine', 'the first line is `seqs K`'),
    ('\nseqs 1\n', '1: BadLine', 'the first line is `seqs K`'),
    ('\ufeffseqs 1\n', '1: BadLine', 'byte order mark'),
    ('seqs 1\r\n0: pipe a b\r\n', '1: BadLine', 'carriage return'),
    ('seqs 1\n0: pipe a b\njoin 0 0 x y\n', '3: BadLine', 'stand before those of the sequences'),
    ('seqs 1\njoin 0 0 x x\n', '2: DoubleName', '`x` is set already, by line 2'),
    (f'{FRONT}0: pipe x z\n', '3: DoubleName', '`x` is set already, by line 2'),
    (f'{FRONT}0: take x y\n', '3: DoubleName', '`y` is set already, by line 2'),
    ('seqs 1\nauto 0 t.P.Ask (7)\nauto 0 t.P.Ask (8)\n', '3: DoubleName', 'an `auto` line for this method already'),
    (f'{FRONT}0: bind z remote t.P\n', '3: UnknownName', 'sets `z`'),
    ('seqs 1\n0: close a\n0: pipe a b\n', '2: UnknownName', 'line 3 does'),
    ('seqs 2\n0: pipe a b\n1: close a\n', '3: UnknownName', 'sequence 0 has one of its own'),
    (f'{FRONT}0: pause x z 1\n', '3: UnknownName', 'sets `z`'),
    (f'{FRONT}0: put z 01\n', '3: UnknownName', 'sets `z`'),
    (f'{FRONT}0: bind x remote P\n', '3: UnknownName', '`t.P` may be meant'),
    (f'{FRONT}0: bind x remote t.Point\n', '3: UnknownName', 'the files have no interface of this full name'),
    (f'{FRONT}0: call x#0 t.P.Pong (7)\n', '3: UnknownName', '`t.P.Ping` may be meant'),
    (f'{FRONT}0: call x#0 t.P (7)\n', '3: UnknownName', 'the files have no method of this full name'),
    (f'{FRONT}auto 0 t.P.Ping (7)\n', '3: UnknownName', 'this method has no response'),
    (f'{FRONT}0: take y r\n0: answer r t.P.Ping (7)\n', '4: UnknownName', 'this method has no response'),
    ('seqs 1\nauto 0 t.P.Lend (%0)\n', '2: BadValue', 'carries no handles'),
    (f'{FRONT}0: call x#0 t.P.Give (%1) y\n', '3: BadValue', 'the next one is 0'),
    (f'{FRONT}0: call x#0 t.P.Ping (7\n', '3: BadValue', 'this one is not whole'),
)

# Texts that are no values of a method's parameters. Those without blanks are tried in a script too.
VALUES = (
    ('Ping', '', 'the value ends too early'),
    ('Ping', '7', 'here stand values in brackets'),
    ('Ping', '[7]', 'here stand values in brackets'),
    ('Ping', '()', 'a decimal number from 0'),
    ('Ping', '(7', 'the value ends too early'),
    ('Ping', '(7,8)', 'the parameters have 1 value: n'),
    ('Ping', '(7))', 'the value ends before this byte'),
    ('Ping', '(7);', 'the value ends before this byte'),
    ('Ping', '(7)\r\n', 'has no carriage return behind it'),
    ('Ping', '(7)\n\n', 'one line feed at most stands behind it'),
    ('Ping', '( 7)', 'a value has no blanks'),
    ('Ping', '(n:7)', 'a decimal number from 0'),
    ('Ping', '(+7)', 'without `+` and leading zeros'),
    ('Ping', '(07)', 'without `+` and leading zeros'),
    ('Ping', '(-1)', 'a decimal number from 0'),
    ('Ping', '(4294967296)', 'a decimal number from 0 to 4,294,967,295'),
    ('Ping', '(0x7)', 'a decimal number from 0'),
    ('Ping', '(7.0)', 'a decimal number from 0'),
    ('Ping', '("7")', 'a decimal number from 0'),
    ('Ping', '(null)', 'so that it is never null'),
    ('Ask', '(hello)', 'which begins with `"`'),
    ('Ask', "('hello')", 'which begins with `"`'),
    ('Ask', '("hello)', 'the value ends too early'),
    ('Ask', '("a\\n")', 'in a string a backslash stands before'),
    ('Ask', '("a\tb")', 'in a string a byte below 32 is written'),
    ('Ask', '("\udcff")', 'no UTF-8'),
    ('Give', '(0)', '`%` with its index among the handles'),
    ('Give', '(%0@0)', 'a version stands behind the index of a remote alone'),
    ('Get', '(%0)', '`^` with its index among the endpoints'),
    ('Draw', '((1,2),GREEN,[1,2],{},null,true,null)', '5 for GREEN'),
    ('Draw', '((1,2),t.Color.RED,[1,2],{},null,true,null)', '0 for t.Color.RED'),
    ('Draw', '((1,2),3,[1,2],{},null,true,null)', '0 for RED, 5 for GREEN'),
    ('Draw', '({"x":1,"y":2},5,[1,2],{},null,true,null)', '`p`, a struct t.Point, has 2 values: x, y'),
    ('Draw', '((1),5,[1,2],{},null,true,null)', 'behind `x`'),
    ('Draw', '((1,2),5,[1],{},null,true,null)', 'as `pair` has 2 elements'),
    ('Draw', '((1,2),5,[1,2,3],{},null,true,null)', 'as `pair` has 2 elements'),
    ('Draw', '((1,2),5,(1,2),{},null,true,null)', 'begins it'),
    ('Draw', '((1,2),5,[1,2],{"a"=true},null,true,null)', 'between a key and its value'),
    ('Draw', '((1,2),5,[1,2],[],null,true,null)', 'begins it'),
    ('Draw', '((1,2),5,[1,2],{},3,true,null)', 'a union'),
    ('Draw', '((1,2),5,[1,2],{},<n:3>,true,null)', 'here stands a tag, 0 for n, 1 for s'),
    ('Draw', '((1,2),5,[1,2],{},<0=3>,true,null)', 'between the tag and what `u` holds'),
    ('Draw', '((1,2),5,[1,2],{},null,1,null)', '`true` or `false`'),
    ('Draw', '((1,2),5,[1,2],{},null,True,null)', '`true` or `false`'),
    ('Draw', '((1,2),5,[1,2],{},null,true,128)', 'a decimal number from -128 to 127'),
    ('Draw', '((1,2),5,[1,2],{},null,true)', 'behind `b`'),
)

# Files that are no messages in hexadecimal.
MESSAGES = (
    ('0x18000000', 'no `0x` either'),
    ('18 00 00 00', 'all digits stand in one line without blanks'),
    ('18000000\n00000000', 'all digits stand in one line without blanks'),
    ('18000000\n\n', 'one line feed at most'),
    ('18000000\r\n', 'no carriage return'),
    ('1800000', 'an odd number: this one stands alone'),
    ('18:00:00:00', 'a message is pairs of hexadecimal digits'),
)

# Mojom files: a part of the line that refuses one, and of the sentence.
FILES = (
    ('module t\nstruct S {};', 'Unexpected', 'it may be lacking behind `t` in line 1'),
    ('module t;\nmodule u;', 'Unexpected', 'here stands'),
    ('struct S { int32 a };', 'Unexpected', '`;`'),
    ('struct S { int32 a; }', 'Unexpected', 'the file ends here'),
    ('struct S : T {};', 'BadChar', 'a definition has no bases'),
    ('struct S { vector<int32> a; };', 'Unexpected', '`array` may be meant'),
    ('struct S { optional<int32> a; };', 'Unexpected', 'a `?` behind the type may be meant'),
    ('struct S { remote<P> p; }; interface P {};', 'Unexpected', '`pending_remote` may be meant'),
    ('struct S { int32 a[3]; };', 'Unexpected', 'here stands'),
    ('struct S { int32 a = 1.5; };', 'Unexpected', 'there are no numbers with a point'),
    ('struct S { handle<socket> h; };', 'Unexpected', 'a sort of handles'),
    ('strukt S {};', 'Unexpected', '`struct` may be meant'),
    ('enum E { A; B };', 'Unexpected', 'here stands'),
    ('const int32 A;', 'Unexpected', '`=`'),
    ('interface P { void Ping(); };', 'Unexpected', 'here stands'),
    ('interface P { Ping() };', 'Unexpected', '`;`'),
    ('interface P { Ping() -> (int32 r); };', 'Unexpected', '`=>`'),
    ('interface P { Ping(P& p); };', 'BadChar', 'pending_remote<I>'),
    ('#include "b.mojom"', 'BadChar', 'comments begin with `//`'),
    ('const string A = \'x\';', 'BadChar', 'strings stand in `"`'),
    ('\ufeffmodule t;', 'BadChar', 'byte order mark'),
    ('module t;\u00a0', 'BadChar', 'this blank is none of ASCII'),
    ('const string A = "x;\n', 'OpenString', 'not closed on its line'),
    ('/* module t;', 'OpenComment', 'not closed by `*/`'),
    ('struct S { int32 a = 010; };', 'LeadingZero', 'no octal numbers'),
    ('const uint64 A = 18446744073709551616;', 'NumberTooLong', '18,446,744,073,709,551,615'),
    ('import "b.mojom";', 'NoFile', 'name it in the call'),
    ('import "a.mojom";', 'CircularImport', 'the file imports itself'),
    ('struct S { int32 a; int32 a; };', 'DuplicateName', 'before it already'),
    ('struct string {};', 'DuplicateName', 'is a basic kind'),
    ('struct S { int a; };', 'UnknownName', 'may be meant'),
    ('struct S { Foo f; };', 'UnknownName', 'nothing that is seen here has the name `Foo`'),
    ('interface P {}; struct S { P p; };', 'WrongSort', '`pending_remote<I>` one of an interface I'),
    ('const int32 A = B; const int32 B = A;', 'CircularConst', 'needs itself'),
    ('const string A = 5;', 'WrongLiteral', 'of another sort than its kind'),
    ('const int8 A = 200;', 'OutOfRange', '200 is outside of'),
    ('enum E {};', 'EmptyEnum', 'has no enumerator'),
    ('struct S { float x; };', 'FloatField', 'send an integer of an agreed unit'),
    ('struct T {}; struct S { map<T, int32> m; };', 'BadMapKey', 'the key of a map is a bool'),
    ('struct S { map<string?, int32> m; };', 'NullableKey', 'the key of a map has no `?`'),
    ('struct S { array<int32?> a; };', 'BadNullable', 'put a struct round it'),
    ('struct S { array<int32, 0> a; };', 'ZeroLengthArray', 'has the length 0'),
    ('struct S { int32 a@0; int32 b@0; };', 'OrdinalDouble', 'has the ordinal 0 already'),
    ('struct S { int32 a@1; };', 'OrdinalGap', 'has the ordinal 0, and a greater one is there'),
    ('struct S { [MinVersion=2] int32 a; [MinVersion=1] int32 b; };', 'VersionFalls', 'new fields go to the end'),
    ('struct S { [MinVersion=1] string s; };', 'LateNotNullable', 'give its type a `?`'),
)

# An older and a newer file that doesn't read what the older one writes.
OLD = 'module t; [Stable] struct S { int32 a; [MinVersion=2] string? b; }; [Stable, Extensible] enum E { A, B = 5 };\n' \
      '[Stable] union U { int32 n; string s; }; [Stable] interface P { Ping(S s); Ask(int32 n) => (E e); };\n' \
      '[Stable] enum F { X, Y };\n'
CHANGES = (
    ('[Stable] union U { int32 n; string s; };', '', 'Missing t.U', 'no definition of the sort and full name'),
    ('[Stable] struct S', 'struct S', 'NotStable t.S', 'is not [Stable]'),
    ('[Stable, Extensible] enum E', '[Stable] enum E', 'ExtensibleGone t.E', 'is [Extensible] in the older file'),
    (', Y }', ' }', 'MemberGone t.F 1', 'has no member of the number 1'),
    ('string s; }', '}', 'TagGone t.U 1', 'no field of the tag 1'),
    (' Ask(int32 n) => (E e);', '', 'MethodGone t.P 1', 'no method of the ordinal 1'),
    (' => (E e)', '', 'ResponseChanged t.P 1', 'none in the other'),
    (' [MinVersion=2] string? b;', '', 'FieldGone t.S 1', 'no field of the ordinal 1'),
    ('int32 a', 'uint32 a', 'KindChanged t.S 0', 'does not fit'),
    ('Ask(int32 n)', 'Ask(int64 n)', 'KindChanged t.P.Ask.request 0', 'does not fit'),
    ('MinVersion=2', 'MinVersion=1', 'VersionChanged t.S 1', 'since another version'),
    ('string? b;', 'string? b; [MinVersion=2] int8 c;', 'EarlyField t.S 2', 'needs a [MinVersion] above all'),
)

# What is asked for and isn't there: words, the line, and a part of the sentence.
ASKED = (
    (('encode', '--method', 'P.Ping', '--value', 'v', 't.mojom'), 'UnknownName P.Ping', '`t.P.Ping` may be meant'),
    (('encode', '--method', 't.P.Pong', '--value', 'v', 't.mojom'), 'UnknownName t.P.Pong', '`t.P.Ping` may be meant'),
    (('encode', '--method', 't.P.Ping', '--response', '--value', 'v', 't.mojom'), 'UnknownName t.P.Ping', 'this method has no response'),
    (('decode', '--interface', 'P', '--handles', '0', '--message', 'm', 't.mojom'), 'UnknownName P', '`t.P` may be meant'),
    (('decode', '--interface', 't.P', '--response', '--handles', '0', '--message', 'ask', 't.mojom'), 'MESSAGE_HEADER_INVALID_FLAGS 16',
     'leave `--response` out'),
    (('decode', '--interface', 't.J', '--handles', '0', '--message', 'ask', 't.mojom'), 'MESSAGE_HEADER_UNKNOWN_METHOD 12', 't.J has 0 for Hi'),
)
# A request of Ping with 7, and one of Ask, of which the header alone is looked at.
PING = '18000000000000000000000000000000000000000000000010000000000000000700000000000000'
ASK = '200000000100000000000000010000000100000000000000010000000000000010000000000000000800000000000000090000000100000061' + 14 * '0'


def of_scripts():
    """Lines and whole scripts, every second of these with threads."""
    for line, part in LINES:
        yield ['run', '--script', 's', 't.mojom'], {'s': f'{FRONT}{line}\n'}, 'script 3: BadLine', part
    for number, (text, said, part) in enumerate(SCRIPTS):
        yield ['run', '--script', 's', *['--threads'] * (number % 2), 't.mojom'], {'s': text}, f'script {said}', part


def of_values():
    """Texts of values, by themselves and as a call in a script."""
    for method, value, part in VALUES:
        yield ['encode', '--method', f't.P.{method}', '--value', 'v', 't.mojom'], {'v': value}, r'BadText \d+', part
        if value and not set(value) & set(' \t\r\n\udcff') and value != '(7':
            line = f'0: call x#0 t.P.{method} {value}\n'
            yield ['run', '--script', 's', 't.mojom'], {'s': FRONT + line}, 'script 3: BadValue', part


def all_mistakes():
    """Each mistake: the words of the call, its files by their names, a pattern of the line that refuses it, and a part of the sentence."""
    for words, files, said, part in [*of_scripts(), *of_values()]:
        yield words, {'t.mojom': MOJOM, **files}, said, part
    for message, part in MESSAGES:
        words = ['decode', '--interface', 't.P', '--handles', '0', '--message', 'm', 't.mojom']
        yield words, {'t.mojom': MOJOM, 'm': message}, 'BadHex', part
    for text, said, part in FILES:
        yield ['check', 'a.mojom'], {'a.mojom': text}, rf'a\.mojom:\d+: {said}( .*)?', part
    for old, new, said, part in CHANGES:
        yield ['compat', 'old.mojom', 'new.mojom'], {'old.mojom': OLD, 'new.mojom': OLD.replace(old, new)}, f'Incompatible {said}', part
    for words, said, part in ASKED:
        yield list(words), {'t.mojom': MOJOM, 'v': '(7)', 'm': PING, 'ask': ASK}, said, part
