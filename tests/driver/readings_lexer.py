"""A plain slow lexer, by section 2.1 of the GraphQL specification: at each place the longest token is taken. Beside the specification, all
characters from U+0020 on may stand in strings and comments, and the first fault of a text is told with its place."""

import re
from dataclasses import dataclass

MAX_BYTES = 1_048_576
SOURCE = "[\t\n\r\x20-\U0010ffff]"
IN_LINE = "[\t\x20-\U0010ffff]"
END_OF_NUMBER = r"(?![0-9.A-Z_a-z])"
WHOLE = "-?(?:0|[1-9][0-9]*)"
HEX = "[0-9A-Fa-f]"
UNIT = f"[0-9A-Ca-cE-Fe-f]{HEX}{{3}}|[Dd][0-7]{HEX}{{2}}"  # no half of a surrogate pair
PAIR = rf"[Dd][89ABab]{HEX}{{2}}\\u[Dd][C-Fc-f]{HEX}{{2}}"
ESCAPE = rf'\\(?:["\\/bfnrt]|u(?:{UNIT}|{PAIR}))'
IN_STRING = f'(?:{ESCAPE}|(?!["\\\\]){IN_LINE})*'
IN_BLOCK = rf'(?:\\"""|(?!"""|\\"""){SOURCE})*'

IGNORED = re.compile(f"(?:[\ufeff\t ,\n\r]|#{IN_LINE}*)+")
TOKENS = {
    "Punct": re.compile(r"[!$&():=@\[\]{|}]|\.\.\."),
    "Name": re.compile("[A-Z_a-z][0-9A-Z_a-z]*"),
    "Float": re.compile(rf"{WHOLE}(?:\.[0-9]+(?:[Ee][+-]?[0-9]+)?|[Ee][+-]?[0-9]+){END_OF_NUMBER}"),
    "Int": re.compile(WHOLE + END_OF_NUMBER),
    "BlockStr": re.compile(f'"""{IN_BLOCK}"""'),
    "Str": re.compile(f'"(?!""){IN_STRING}"'),
}
ESCAPED = {"b": "\b", "f": "\f", "n": "\n", "r": "\r", "t": "\t"}


class Fault(Exception):
    """The first fault of a text, with its place."""


@dataclass(frozen=True)
class Token:
    kind: str
    text: str
    place: str


def place_of(text: str, at: int) -> str:
    """The line and the column of what stands at this place."""
    lines = re.split("\r\n|\n|\r", text[:at] + ("\n" if text[at - 1 : at + 1] == "\r\n" else ""))
    return f"{len(lines)}:{len(lines[-1]) + 1}"


def fault_at(text: str, at: int) -> Fault:
    """What is wrong where no token begins."""
    if text[at] == "-" or "0" <= text[at] <= "9":
        return Fault(f"bad number at {place_of(text, at)}")
    if text[at] != '"':
        return Fault(f"bad character at {place_of(text, at)}")
    is_block = text.startswith('"""', at)
    front = re.compile(f'"""{IN_BLOCK}' if is_block else f'"{IN_STRING}').match(text, at)
    assert front
    behind = text[front.end() : front.end() + 1]
    if behind == "" or (behind in "\n\r" and not is_block):
        return Fault(f"unterminated string at {place_of(text, at)}")
    return Fault(f"bad {'escape' if behind == chr(92) else 'character'} at {place_of(text, front.end())}")


def tokens_of(text: str) -> list[Token]:
    """The tokens of a text, or its first fault."""
    if len(text.encode()) > MAX_BYTES:
        raise Fault("document too long")
    tokens, at = [], 0
    while at < len(text):
        ignored = IGNORED.match(text, at)
        if ignored:
            at = ignored.end()
            continue
        found = [(len(match[0]), kind) for kind, token in TOKENS.items() if (match := token.match(text, at))]
        if not found:
            raise fault_at(text, at)
        length, kind = max(found)
        tokens.append(Token(kind, text[at : at + length], place_of(text, at)))
        at += length
    return tokens


def unescaped(inside: str) -> str:
    """What is written so inside a string."""
    pairs = re.sub(
        r"\\u([Dd][89ABab]..)\\u([Dd][C-Fc-f]..)",
        lambda found: chr(0x10000 + (int(found[1], 16) - 0xD800) * 0x400 + int(found[2], 16) - 0xDC00),
        re.sub(r"\\\\", "\0", inside),
    )
    units = re.sub(r"\\u(....)", lambda found: chr(int(found[1], 16)), pairs)
    return re.sub(r"\\(.)", lambda found: ESCAPED.get(found[1], found[1]), units).replace("\0", "\\")


def block_value(inside: str) -> str:
    """The value of a block string: `BlockStringValue` of section 2.9.4."""
    lines = re.split("\r\n|\n|\r", inside.replace('\\"""', '"""'))
    indents = [len(line) - len(line.lstrip("\t ")) for line in lines[1:] if line.strip("\t ")]
    lines[1:] = [line[min(indents, default=0) :] for line in lines[1:]]
    while lines and not lines[0].strip("\t "):
        del lines[0]
    while lines and not lines[-1].strip("\t "):
        del lines[-1]
    return "\n".join(lines)


def value_of(token: Token) -> str:
    """The value of a string."""
    return block_value(token.text[3:-3]) if token.kind == "BlockStr" else unescaped(token.text[1:-1])
