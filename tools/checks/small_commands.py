"""Commands over small inputs, with what each is given and ends with where nothing fails, for tools that have
something fail.
"""
import dataclasses

from cases import fault_cases
from cases.log_cases import (
    BAD_INPUT, BEYOND, CLOSED, CLOSED_HEAD, DAMAGED, DONE, NOT_A_LOG, REFUSED, REJECTED, SET_LOG, USAGE, frames_of,
    log_of,
)
from checks.program_cases import (
    BANK, DRAFT, EVENING_FRAMES, EXPOSE, MARKED_LOG, MAY, MAY_PROOF, NO_LIGHT, PROVE_MAY, PROVE_S1, RAW_A_PROOF,
    RECALL_FILE, RECALL_LOG, S1, S1_PROOF, SET_FRAME, SET_LIGHT, SHELF_LIGHT, SHELF_LOG, VERIFY, VERIFY_MAY, VERIFY_S1,
)
from checks.program_runs import TOP


def read(path):
    with open(path, "rb") as file:
        return file.read()


@dataclasses.dataclass
class Command:
    """A command, its input and its log, and how it ends where nothing fails."""

    words: str
    source: bytes = b""
    log: object = None
    status: int = DONE

    def name(self):
        words = " ".join(word if len(word) < 64 else "ROOT" for word in self.words.split())
        return f"{words} over {len(self.source)} bytes and {'no' if self.log is None else len(self.log)} of a log"


BANK_FILE = read(BANK)
BANK_LOG = log_of(BANK_FILE)
CUT_FILE = RECALL_FILE[:-1]
# Those that store blocks, those that mark a log, and all others.
STORING = [
    Command("append", RECALL_FILE),
    Command("append", BANK_FILE),
    Command("append", RECALL_FILE, log_of(frames_of(RECALL_FILE)[0])),
    Command("append", RECALL_FILE, RECALL_LOG),
    Command("append", CUT_FILE, status=REFUSED),
    # Over a head that was begun, and over bytes behind a closed gate.
    Command("append", RECALL_FILE, CLOSED_HEAD + CLOSED),
    Command("append", RECALL_FILE, log_of(frames_of(RECALL_FILE)[0]) + CLOSED * 9),
    Command("follow", RECALL_FILE),
    Command("follow", RECALL_FILE, log_of(frames_of(RECALL_FILE)[0])),
]
UPGRADES = [
    Command("upgrade"),
    Command("upgrade", log=RECALL_LOG),
    Command("upgrade", log=BANK_LOG),
    Command("upgrade", log=CLOSED_HEAD + CLOSED),
    Command("upgrade", log=RECALL_LOG + CLOSED * 9),
]
OTHERS = [
    Command("follow", log=RECALL_LOG),
    Command("follow", b"".join(frames_of(RECALL_FILE)[1:])),
    Command("scan hist raw/lot/l1 2", RECALL_FILE),
    Command("scan back raw/lot/l3 2", RECALL_FILE),
    Command("scan fwd bank/n 1", BANK_FILE),
    Command("scan hist raw/lot/l1 2", CUT_FILE, status=REFUSED),
    Command("root", log=RECALL_LOG),
    Command("root 1", log=BANK_LOG),
    Command("hist raw/lot/l1", log=RECALL_LOG),
    Command("back raw/lot/l3", log=RECALL_LOG),
    Command("fwd bank/n 1", log=BANK_LOG),
    Command("hist raw/lot/l1 3", log=RECALL_LOG, status=BEYOND),
    Command("hist raw/a", log=MARKED_LOG),
    Command("root", log=log_of(RECALL_FILE, b"")),
    Command("upgrade", log=log_of(RECALL_FILE, b"")),
    Command("upgrade", log=b"hello", status=NOT_A_LOG),
    Command("upgrade", log=MARKED_LOG[:-1], status=DAMAGED),
    Command("root", status=BEYOND),
    Command("root", log=b"hello", status=NOT_A_LOG),
    Command("root", log=SET_LOG[:40], status=DAMAGED),
    Command("prove hist raw/lot/l1 1 2", log=RECALL_LOG),
    Command("prove back raw/lot/l3 2 2", log=RECALL_LOG),
    Command("prove fwd bank/n 1 3", log=BANK_LOG),
    Command("prove hist raw/lot/l9 2 2", log=RECALL_LOG),
    Command(VERIFY.decode(), RAW_A_PROOF),
    Command(VERIFY.decode().replace("raw/a", "raw/b"), RAW_A_PROOF, status=REJECTED),
    Command(VERIFY.decode(), b"zz", status=BAD_INPUT),
    Command(fault_cases.VERIFY, fault_cases.PROOF.encode("ascii")),
    Command(EXPOSE.decode(), RAW_A_PROOF, SET_LOG),
    Command(fault_cases.EXPOSE, fault_cases.PROOF.encode("ascii"), fault_cases.LOG),
    Command(EXPOSE.decode().replace("raw/a", "raw/b"), RAW_A_PROOF, SET_LOG, status=REJECTED),
    Command(S1.decode(), log=RECALL_LOG),
    Command("trace bank/log 3", log=BANK_LOG),
    Command(S1.decode(), log=SET_LOG, status=BEYOND),
    Command(PROVE_S1.decode(), log=RECALL_LOG),
    Command("trace prove bank/log 3 3", log=BANK_LOG),
    Command(VERIFY_S1.decode(), S1_PROOF),
    Command(VERIFY_S1.decode().replace("s1", "s2"), S1_PROOF, status=REJECTED),
    Command(VERIFY_S1.decode(), b"zz", status=BAD_INPUT),
    Command(MAY.decode(), log=SHELF_LOG),
    Command("range bank/n 0 3", log=BANK_LOG),
    Command("range raw/lot/l9 0 2", log=RECALL_LOG),
    Command(MAY.decode(), log=SET_LOG, status=BEYOND),
    Command("range raw/a 1 0", log=SET_LOG, status=USAGE),
    Command(PROVE_MAY.decode(), log=SHELF_LOG),
    Command("range prove bank/n 0 3 3", log=BANK_LOG),
    Command(VERIFY_MAY.decode(), MAY_PROOF),
    Command(VERIFY_MAY.decode().replace("s7", "s8"), MAY_PROOF, status=REJECTED),
    Command(VERIFY_MAY.decode(), b"zz", status=BAD_INPUT),
    Command("light make", log=RECALL_LOG),
    Command("light make", log=BANK_LOG),
    Command("light make", log=SHELF_LOG),
    Command("light make"),
    Command("light make", log=b"hello", status=NOT_A_LOG),
    Command("light make", log=SET_LOG[:40], status=DAMAGED),
    Command("light", SET_LIGHT + SET_FRAME),
    Command("light", SHELF_LIGHT + EVENING_FRAMES),
    Command("light", SET_LIGHT + NO_LIGHT + SET_FRAME, status=REFUSED),
    Command("light", NO_LIGHT + SET_FRAME, status=REJECTED),
    Command("light", SET_LIGHT[:-1], status=BAD_INPUT),
    Command("light x", SET_LIGHT, status=USAGE),
    Command("fmt", read(f"{TOP}/examples/shop.contract")),
    Command("fmt 2", read(f"{TOP}/examples/lot.contract")),
    Command("fmt", b"fn f() { a = 1; }", status=BAD_INPUT),
    Command("pack", read(DRAFT)),
    Command("pack", b'[[{"set":{}}]]', status=BAD_INPUT),
    Command("gen 20 7"),
    Command("load 20 7"),
    Command("scan hist raw/a", status=USAGE),
]
