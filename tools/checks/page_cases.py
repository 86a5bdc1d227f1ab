"""Runs of the commands that check proofs, for verifiers/verify.html: of each its words, its input, and what the command
prints with its status.

They are those of crates/run_cases, of a folder of recorded runs where there is one, forged proofs, and proofs that are
changed at random, or drawn, in turn of each sort.
"""
import dataclasses
import functools
import json
import os
import random
import re
import subprocess

from cases import forged_lights, forged_proofs, forged_ranges, forged_traces
from cases.changed_proofs import DrawnAnswers, Lights, Ranges, Traces, wanted_of
from cases.forged_proofs import BLOCK_DIGEST, HEAD
from cases.light_cases import frame
from cases.proof_cases import recorded_cases
from cases.root_cases import History
from checks.limits import limited

# The blocks and the seeds of the chains whose proofs are changed.
CHAINS = [(30, 7), (45, 11)]
# Of so many changed proofs in turn, which sort each is of.
OF_ANSWERS, OF_TRACES, OF_RANGES, OF_LIGHTS = DrawnAnswers(), Traces(), Ranges(), Lights()
TURN = [OF_ANSWERS, OF_TRACES, OF_RANGES, OF_ANSWERS, OF_TRACES, OF_RANGES, OF_ANSWERS, OF_LIGHTS]
# How many seconds of a processor a run may take.
LIMIT = 300
# What the runs of each command must come to, so that none of it is left untried: each check that refuses, each fault of
# an input, and each answer.
OF_ROOT = "malformed root leaf path link body"
OF_ANSWER = "none tx_int tx_text gone deps uses"
OUTCOMES = {
    "verify": f"{OF_ROOT} query list odd at usage {OF_ANSWER}",
    "trace": f"{OF_ROOT} query late two extra order header trace_body missing odd at none ancestors",
    "range": f"{OF_ROOT} query odd at usage versions",
    "light": f"{OF_ROOT} list unknown digest truncated length light none tx_int tx_text deps uses",
}


@dataclasses.dataclass
class Run:
    """A run by its name, and what is told of it with the status; nothing where that is to be asked."""

    name: str
    words: list
    source: bytes
    wanted: object = None


def is_of_proofs(words):
    return words == ["light"] or words[:1] == ["verify"] or words[:2] in (["trace", "verify"], ["range", "verify"])


def recorded():
    """The runs among the cases."""
    for at, (words, source, (lines, status)) in enumerate(
        (words, source, (lines, int(first.split()[0]))) for words, source, [first, *lines] in recorded_cases()
    ):
        yield Run(f"case {at}", words.split(" "), source, ("".join(f"{line}\n" for line in lines), status))


def of_folder(folder):
    """The runs of a folder's files, of which each line is one, as JSON: its name, its words, its input in hex, what is
    told and the status; a run over a log stands among them too, and is passed over."""
    for name in sorted(os.listdir(folder)):
        if not name.endswith(".jsonl"):
            continue
        with open(f"{folder}/{name}", encoding="utf-8") as file:
            for given in map(json.loads, file):
                if is_of_proofs(given["words"]):
                    wanted = given["told"], given["status"]
                    yield Run(f"{name} {given['name']}", given["words"], bytes.fromhex(given["input"]), wanted)


def forged():
    """Proofs of wrong answers, of which each is refused by one check alone."""
    history = History(forged_proofs.ROWS)
    root = history.root(HEAD, BLOCK_DIGEST)
    answers = [(root, forgery) for forgery in forged_proofs.forgeries(history)]
    for sort, forgeries in [
        (["verify"], answers),
        (["trace", "verify"], forged_traces.with_roots()),
        (["range", "verify"], forged_ranges.with_roots()),
    ]:
        for root, forgery in forgeries:
            asked = list(map(str, forgery.question[sort != ["verify"] :]))
            yield Run(f"forged: {forgery.name}", [*sort, root.hex(), *asked], forgery.proof.hex().encode())
    for light, forgery, _ in forged_lights.with_files():
        yield Run(f"forged, by a light file: {forgery.name}", ["light"], light + frame(forgery.proof))


@functools.cache
def proofs(sort, seed):
    """Proofs of a sort over two chains."""
    rng = random.Random(seed)
    return [proof for chain in CHAINS for proof in sort.proofs_of_chain(*chain, rng)]


def make_proofs(seed):
    """Makes the proofs of each sort, so that no worker that is forked then makes its own."""
    for sort in TURN:
        proofs(sort, seed)


def changed(place, seed):
    """The run of a number: a proof that is changed at random, or drawn."""
    sort = TURN[place % len(TURN)]
    return Run(f"seed {seed} number {place}", *sort.case(place, proofs(sort, seed), seed))


def asked(program, run):
    """What is told of a run with its status: by the program, or by verifiers/verify.py where there is none."""
    if program is None:
        told, status = wanted_of(run.words, run.source)
    else:
        words = [word.encode() for word in run.words]
        ran = subprocess.run([program, *words], input=run.source, capture_output=True, **limited(LIMIT))
        told, status = ran.stdout, ran.returncode
    return told.decode("ascii"), status


def asked_of_batch(program, seed, places):
    """The changed proofs of these numbers, with what is told of them."""
    runs = [changed(place, seed) for place in places]
    return [dataclasses.replace(run, wanted=asked(program, run)) for run in runs]


# ---- which outcomes there were


def outcomes(run):
    """What a run comes to, and each proof of it, behind the first word of its command."""
    told, _ = run.wanted
    for line in told.splitlines():
        outcome = outcome_of(line.split())
        if outcome:
            yield f"{run.words[0]} {outcome}"


def outcome_of(words):
    """What a line comes to; nothing where it goes on with an answer, or names a proof that is accepted."""
    if words[0] == "proof":
        return words[3] if words[2] == "rejected" else None
    if words[:2] == ["rejected", "trace"]:
        return "trace_body" if words[2] == "body" else words[2]
    if words[0] in ("rejected", "badinput"):
        return words[1]
    if words[0] == "refused":
        return words[3]
    if words[0] == "block":
        return words[2] if words[2] != "tx" else words[4] if words[4] == "gone" else f"tx_{words[4]}"
    return words[0] if words[0] in ("usage", "none", "versions") else None


def missing(counts):
    """Which outcomes there were none of."""
    wanted = [f"{command} {outcome}" for command, all_of_it in OUTCOMES.items() for outcome in all_of_it.split()]
    return [outcome for outcome in wanted if not counts[outcome]]


def is_typed(run):
    """Whether the fields of the page can hold the words: they take no blank before or behind a word, and give a choice
    of kinds."""
    kinds = run.words[2:3] if run.words[0] == "verify" else ["hist"]
    is_formed = run.words == ["light"] or len(run.words) == {"verify": 5, "trace": 5, "range": 6}[run.words[0]]
    are_shown = all(re.fullmatch("[!-~]*", word) for word in run.words)
    return is_formed and are_shown and kinds[0] in ("hist", "back", "fwd")
