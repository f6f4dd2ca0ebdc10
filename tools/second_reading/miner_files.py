"""What a miner reads beside its share file: code, and its own tape."""
from __future__ import annotations

import code_file
from files import TAPE_LIMIT
from refusals import CallRefused
from wire import read_words


def read_code(data: bytes, rules: code_file.Rules = code_file.SECOND) -> code_file.Code:
    """The code in a file, which may run; else its first fault."""
    try:
        code = code_file.decode(data, rules)
    except code_file.CodeFault as fault:
        raise CallRefused(str(fault), 3) from None
    wrong = code_file.Verifier(code).fault()
    if wrong:
        raise CallRefused(wrong, 3)
    return code


def read_first_code(data: bytes) -> code_file.Code:
    """Likewise of the first version."""
    return read_code(data, code_file.FIRST)


def read_own_tape(data: bytes, length: int) -> list[int]:
    """The words of a miner's own tape, which has to be so long."""
    if len(data) < 8:
        raise CallRefused(f"Q1 place {len(data)}", 5)
    (said,) = read_words(data[:8])
    if said > TAPE_LIMIT or said != length:
        raise CallRefused("Q1 place 0", 5)
    if len(data) != 8 + 8 * said:
        raise CallRefused(f"Q1 place {min(len(data), 8 + 8 * said)}", 5)
    return read_words(data[8:])
