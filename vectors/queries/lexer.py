"""Texts, and the tokens or the fault that the rules of tokens give for each.

This is a lexer of its own, by regular expressions; it shares nothing with the crates.
"""
import re

GRAMMAR = """SELECT FROM WHERE INNER JOIN ON AND OR NOT IS NULL TRUE FALSE UNKNOWN IN BETWEEN GROUP BY AS
COUNT SUM DATE""".split()
LEFT_OUT = """ORDER LIMIT OFFSET FETCH DISTINCT ALL HAVING UNION EXCEPT INTERSECT LEFT RIGHT FULL OUTER CROSS
NATURAL USING LIKE ESCAPE EXISTS ANY SOME CASE CAST MIN MAX AVG WITH VALUES INSERT UPDATE DELETE""".split()
SYMBOLS = {
    "(": "LeftParenthesis", ")": "RightParenthesis", ",": "Comma", ".": "Period", ";": "Semicolon",
    "*": "Asterisk", "=": "Equal", "<>": "NotEqual", "!=": "NotEqual", "<": "Less", "<=": "LessOrEqual",
    ">": "Greater", ">=": "GreaterOrEqual", "+": "Plus", "-": "Minus", "/": "Solidus", "%": "Percent",
    "||": "Concatenation",
}
PATTERN = re.compile(
    rb"""(?P<space>[ \t\n\r]+|--[^\n]*)
    |(?P<word>[A-Za-z_][A-Za-z0-9_]*)
    |(?P<digits>[0-9]+)
    |(?P<name>"(?:[^"]|"")*"(?!"))
    |(?P<string>'(?:[^']|'')*'(?!'))
    |(?P<symbol><>|!=|<=|>=|\|\||[(),.;*=<>+\-/%])""",
    re.VERBOSE | re.DOTALL,
)


def kind_of(group, piece):
    text = piece.decode()
    if group == "word":
        upper = text.upper()
        if upper in GRAMMAR:
            return f"Keyword({upper.capitalize()})"
        return "LeftOut" if upper in LEFT_OUT else "Name"
    if group == "digits":
        return "Digits" if int(text) < 10**38 else None
    if group == "name":
        return "DelimitedName" if len(piece) > 2 else None
    if group == "string":
        return "String"
    return f"Symbol({SYMBOLS[text]})"


def lex(query):
    text = query.encode()
    if len(text) > 16384:
        return "F12 LimitReached"
    told, at = "", 0
    while at < len(text):
        match = PATTERN.match(text, at)
        group = match.lastgroup if match else None
        kind = kind_of(group, match.group()) if match and group != "space" else None
        if group is None or (group != "space" and kind is None):
            return f"F13 BadSql at byte {at}"
        if kind is not None:
            told += f"{kind} {at} {match.end() - at};"
        at = match.end()
    return told


LIMIT = str(10**38)
GROUPS = {
    # the words, in three spellings
    "WORDS": [
    " ".join(GRAMMAR), " ".join(word.lower() for word in GRAMMAR), "sElEcT nUlL fRoM oRdEr uNkNoWn",
    " ".join(LEFT_OUT), " ".join(word.title() for word in LEFT_OUT),
    ],
    "NAMES": [
    "a", "_", "_9", "a1_B", "selects", "SELEC", "NULLS", "dates", "selec\u00e9", "\u00e9", "a\u00e9", "9a", "a9", "a.b", "a. b",
    '"a"', '"select"', '"a b"', '"a""b"', '"\u00e9"', '""""', '""', 'a ""', '"""', '"a', '"a""', '"a" "b"', '"a"b"', '"a""b""',
    '"a\nb"', '"--"', '"\'"', "TIMESTAMP '' timestamp",
    ],
    "STRINGS": [
    "''", "'a'", "'a''b'", "''''", "'''", "'", "'x''", "'x' 'y'", "'x''y'", "'--'", "'\"'", "'\u00e9'", "'a\nb'", "SELECT a FROM t WHERE 'x",
    "'a'b'", "''a''", "'' ''",
    ],
    "DIGITS": [
    "0", "007", "12 34", "12a", str(10**38 - 1), LIMIT, "0" * 50 + "1", "0" * 50 + str(10**38 - 1), "0" * 50 + LIMIT, "9" * 39,
    "a " + LIMIT + " '", "1.5", "-1", "+1",
    ],
    "SYMBOLS": [
    "( ) , . ; * = <> != < <= > >= + - / % ||", "(),.;*=<>!=<<=>>=+-/%||", "<=>", "<<", "<>=", "><", "!", "a ! b", "!==", "|", "a | b", "|||",
    "= =", "===", "-", "- -", "--", "a--b", "a = --1", "a -- b\nc", "--\n--\na", "-- 'x\n'y'", "---", "a- -b", "a-\n-b", "-- \u00e9", "--\ra\n b",
    ],
    # what begins no token
    "STRANGERS": [
    "@", "a @ b", "a\tb\r\nc", "\x0b", "\x0c", "a\x00b", "\u00a0", "a#", "[", "{", "^", "&", "~", "`", "$", ":", "?", "\\", "a\u2003b",
    ],
    # the first of several faults
    "SEVERAL": [
    "a @ ' # \"", "\"\" @", "'a' @ '", "@@", LIMIT + " @",
    ],
    # whole queries
    "WHOLE": [
    "", " ", "\n\n", "SELECT a FROM t", "select \"a\"\"b\" from t -- c", "SELECT a,, b FROM t", "SELECT a FROM t;;",
    "SELECT a FROM t WHERE a BETWEEN 1 2", "SELECT a FROM t WHERE a + 1 = 2", "SELECT a FROM t WHERE a = --1",
    "SELECT x.i, y.i FROM t AS x JOIN t AS y ON x.a = y.a", "SELECT COUNT(*), SUM(a) FROM t GROUP BY b;",
    "SELECT a FROM t WHERE a IS NULL IS NOT TRUE", "SELECT a FROM t WHERE b <> 'it''s' AND c != -7",
    ],
}

# Texts whose tokens are asked what they say.
SPOKEN = [
    "a1_B", "SELECT", '"a""b"', '""""', '"\'"', "''", "'it''s'", "''''''", "'\u00e9''\"'", "007", "0", "9" * 38, "<>",
    "NULL date Order + - * / % ||", "SELECT count a \"null\" 'DATE' 1 = <> . ; ( ) ,",
]


def spoken(query):
    """What each token says, how many bytes that has, its number, and whether it is left out."""
    text, told = query.encode(), ""
    for entry in lex(query).split(";")[:-1]:
        kind, start, size = entry.rsplit(" ", 2)
        piece = text[int(start) : int(start) + int(size)].decode()
        if kind in ("DelimitedName", "String"):
            piece = piece[1:-1].replace(2 * piece[0], piece[0])
        number = f"Some({int(piece)})" if kind == "Digits" else "None"
        is_left_out = kind == "LeftOut" or piece.upper() in ("NULL", "DATE", *"+-*/%", "||") and kind[:7] in ("Keyword", "Symbol(")
        told += f"{piece} {len(piece.encode())} {number} {str(is_left_out).lower()};"
    return told
