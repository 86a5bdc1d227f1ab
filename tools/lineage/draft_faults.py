"""What is wrong with a draft, for a person: which field of which transaction, by docs/formats.md.

The program decides which block and transaction has the first fault; this looks only there.
"""
import contextlib
import json
import re

NO_DRAFT = "the input is no draft"
MAX_TXS = 4_096
MAX_BUDGETS = 10_000_000
KEY = "[a-z0-9./_-]{1,64}"
NAME = "[a-z][a-z0-9_]{0,15}"
# The most bytes of a text, in a block of each version.
MAX_TEXT_BYTES = {1: 1_024, 2: 8_192}
MAX_DEPS, MAX_ARGS, MAX_SOURCE_BYTES, MAX_BUDGET = 64, 8, 16_384, 1_000_000


def is_text(value, pattern):
    return isinstance(value, str) and re.fullmatch(pattern, value) is not None


def is_whole(value, least, most):
    return type(value) is int and least <= value <= most


def is_value(value, most):
    """Whether this is a value, whose text has at most so many bytes."""
    return is_whole(value, -(2**63), 2**63 - 1) or is_text(value, "[ -~]{0,%d}" % most)


def is_list(value, most, is_item):
    return isinstance(value, list) and len(value) <= most and all(map(is_item, value))


def is_source(value):
    return isinstance(value, str) and len(value.encode(errors="replace")) <= MAX_SOURCE_BYTES


# What each field may be, for a person, and as a test.
A_KEY = ("a key, which has 1 to 64 of a-z 0-9 . / _ -", lambda value: is_text(value, KEY))
A_NAME = ("1 to 16 of a-z 0-9 _, the first a letter", lambda value: is_text(value, NAME))
DEPS = ("an array of at most 64 keys", lambda value: is_list(value, MAX_DEPS, A_KEY[1]))
SOURCE = ("a text of at most 16,384 bytes", is_source)
BUDGET = ("a whole number up to 1,000,000", lambda value: is_whole(value, 0, MAX_BUDGET))


def fields_of(version):
    """The fields of each kind of transaction, in a block of this version."""
    most = MAX_TEXT_BYTES[version]
    values = f"a whole number of 64 bits, or a text of at most {most:,} printable ASCII characters"
    a_value = (values, lambda value: is_value(value, most))
    args = (
        "an array of at most 8 values",
        lambda value: is_list(value, MAX_ARGS, lambda item: is_value(item, most)),
    )
    return {
        "set": {"sender": A_KEY, "key": A_KEY, "value": a_value, "deps": DEPS},
        "deploy": {"sender": A_KEY, "name": A_NAME, "source": SOURCE},
        "call": {"sender": A_KEY, "contract": A_NAME, "function": A_NAME, "args": args, "budget": BUDGET},
    }


FIELDS = {version: fields_of(version) for version in MAX_TEXT_BYTES}
MAY_BE_LEFT_OUT = {"deps"}


def sentence(source, printed, version):
    """What is wrong with a draft of blocks of this version of which this line was printed, as words."""
    if printed[:2] == ["badinput", "json"]:
        return f"the input is no JSON text{json_place(source)}"
    if printed[:2] == ["badinput", "top"]:
        return "the draft is no array of blocks"
    if printed[:2] not in (["badinput", "block"], ["badinput", "draft"]):
        return NO_DRAFT
    numbers = [int(number) for number in printed[2:]]
    place = "in " * (len(numbers) > 1) + f"block {numbers[0]} of the draft"
    with contextlib.suppress(ValueError, LookupError, TypeError, RecursionError):
        # -0 is no whole number.
        blocks = json.loads(source, parse_int=lambda text: 0.0 if text == "-0" else int(text))
        if len(numbers) == 1:
            return f"{place}, from 0, {block_fault(blocks[numbers[0]])}"
        fault = tx_fault(blocks[numbers[0]][numbers[1]], FIELDS[version])
        return f"{place} transaction {numbers[1]}, both from 0: {fault}"
    return NO_DRAFT


def json_place(source):
    """Where a text stops being JSON, where Python's reader says so too."""
    try:
        json.loads(source)
    except json.JSONDecodeError as error:
        return f": line {error.lineno}, column {error.colno}: {error.msg}"
    except (ValueError, RecursionError):
        pass
    return ""


def block_fault(block):
    if not isinstance(block, list):
        return "is no array of transactions"
    if len(block) > MAX_TXS:
        return f"has {len(block):,} transactions, and at most 4,096 are taken"
    budgets = sum(tx["call"]["budget"] for tx in block if "call" in tx)
    if budgets > MAX_BUDGETS:
        return f"has calls whose budgets come to {budgets:,}, and to 10,000,000 they may"
    return "has more than 1,048,576 bytes"


def tx_fault(tx, rules):
    """What the first field is, in the order of the formats, that is missing, unknown or breaks its
    rule."""
    if not isinstance(tx, dict) or len(tx) != 1 or not rules.keys() & tx.keys():
        return "it is no object of one member `set`, `deploy` or `call`"
    ((kind, fields),) = tx.items()
    if not isinstance(fields, dict):
        return f"`{kind}` is no object"
    for name, (what, is_right) in rules[kind].items():
        if name not in fields:
            if name not in MAY_BE_LEFT_OUT:
                return f"`{kind}` has no `{name}`"
        elif not is_right(fields[name]):
            return f"`{name}` of `{kind}` must be {what}"
    unknown = next(iter(fields.keys() - rules[kind].keys()), None)
    return f"`{kind}` takes no `{unknown}`" if unknown else "a field breaks its rule"
