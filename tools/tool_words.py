"""The words of a tool."""
import sys


def words(doc, least, most):
    """The words that the tool was given. Where they are fewer or more than it takes, or ask what it does, it
    ends with that."""
    given = sys.argv[1:]
    if not least <= len(given) <= most or {"-h", "--help"} & set(given):
        sys.exit(doc)
    return given


def taken(given, option, otherwise):
    """Takes an option and the word behind it from the words, which is the answer; the other one where it isn't there."""
    if option not in given[:-1]:
        return otherwise
    at = given.index(option)
    word = given[at + 1]
    del given[at : at + 2]
    return word
