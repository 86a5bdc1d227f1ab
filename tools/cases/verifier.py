"""verifiers/verify.py as a module, and what it tells of proofs."""
import io
import sys

from places import TOP

sys.path.insert(0, f"{TOP}/verifiers")
import verify


LIGHT = ["light"]


def told_of(words, source):
    """What the verifier prints of an input where the words of the command, `verify`, `trace verify`, `range verify` or
    `light`, are these, line by line, and its status."""
    if words == LIGHT:
        return told_by_light(source)[:2]
    command, *others = words
    try:
        of, root, question = verify.read_words(others if command == "verify" else [command, *others[1:]])
        proof = verify.read_proof(verify.read_hex(source), of)
        return verify.proved(proof, root, question), verify.DONE
    except verify.Stop as stop:
        return [stop.line], stop.status


def told_by_light(source):
    """What the verifier prints of a light file and proofs, line by line, its status, and how many bytes are left."""
    lines, stream = [], io.BytesIO(source)
    status = verify.check_by_light(stream.read, lines.extend)
    return lines, status, len(source) - stream.tell()


def text_of(lines):
    return "".join(f"{line}\n" for line in lines)


def root_of(proof):
    """The root that a proof leads to, of whatever it is one; none where the bytes are no proof."""
    try:
        read = verify.read_proof(proof, verify.kind_of(proof))
        return verify.root_of(read.start if isinstance(read, verify.Trace) else read)
    except verify.Stop:
        return None
