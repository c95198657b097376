"""What the faults by position and the Rust walk have in common: the built-in names, and the
kinds of fault in the Rust's words."""

BUILTINS = ('print', 'input', 'int', 'bool', 'str', 'len', 'range', 'float',
            'assert', 'map', 'filter', 'set', 'treeset')

WORDS = {
    8: 'Undefined variable: %s',
    9: 'Undefined function: %s',
    10: "Undefined variable '%s' captured by lambda",
    11: 'Unbound local variable: %s',
    12: 'Unbound local function: %s',
    13: "Unbound local variable '%s' captured by lambda",
    14: 'Invalid assignment target: cannot assign to literal, call, or expression',
    15: "Method '%s' in class '%s' must have 'self' as first parameter",
}


def in_words(kind: int, *names: str) -> bytes:
    """The message of a fault: 14 has no name, 15 those of the method and the class."""
    return (WORDS[kind] % names).encode('ascii')
