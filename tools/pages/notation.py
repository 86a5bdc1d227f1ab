"""The key of the notation of definitions, for who has never seen it: a part of docs/definitions.md."""

# What is read first, each by its crate, its file in specs/, and its name.
FIRST = [
    ("cli_output", "Output", "Wants"),
    ("cli_output", "Running", "Meets"),
    ("lc_base", "History", "scan"),
    ("chain_exec", "Replay", "replay"),
    ("chain_exec", "Fold", "block_effects"),
    ("block_log", "Standing", "standing"),
    ("disk_model", "Disk", "IsImage"),
    ("cli_promises", "Promises", "Telling"),
    ("rooted_chain", "Roots", "root_in"),
    ("cli_output", "Showing", "ProvedAnswersHold"),
]

# What is written, and how it is read.
SIGNS = [
    ("`f x y`", "`f` of `x` and `y`: there are no brackets around arguments, and no commas between them"),
    ("`λ x. E`", "the function that returns `E` for each `x`"),
    ("`A → B`", "of statements: if `A`, then `B`. Of types: a function that takes an `A` and returns a `B`"),
    ("`(x : A) → B`", "for each `x` of `A`: `B`"),
    ("`(x : A) × B`", "there is an `x` of `A` with `B`"),
    ("`A × B`", "both `A` and `B`; of types, a pair, whose parts are `p.0` and `p.1`"),
    ("`A ⊎ B`", "`A`, or `B`, or both"),
    ("`⊥`, `Unit {0}`", "what is never so; what is always so"),
    ("`a ≡ b`, `a ≢ b`", "`a` is `b`; it isn't"),
    ("`a == b`, `a && b`, `not a`", "the same as values `true` and `false`, which `≡ true` makes a statement of"),
    ("`ℕ`, `ℤ`, `suc n`", "the numbers from 0 on, without an end; whole numbers; `n + 1`"),
    ("`a - b`", "of numbers from 0 on: 0 where `b` is greater"),
    ("`[]`, `x ∷ xs`, `xs ++ ys`", "the empty list; `x` and then `xs`; `xs` and then `ys`"),
    ("`Some x`, `None`", "an `x` that is there; none"),
    ("`Ok x`, `Err e`", "a call that was done, with what it returns; one that failed, and why"),
    ("`IfOk r P`, `IfSome o P`", "if `r` is an `Ok x`, or `o` a `Some x`, then `P x`"),
    ("`IsErr r`, `IsErrOf r E`", "`r` is an error; it is the error `E`"),
    ("`record { a = x; b = y }`", "a value with these fields; `r.a` is the field `a` of `r`"),
    ("`record r { a = x }`", "`r`, with `x` in place of its field `a`"),
    ("`◌+◌`", "an operator by itself: where an argument stands, there is a `◌`"),
]

# How definitions begin.
FORMS = [
    ("`abbrev pub name : T`", "a function of the type `T`. The lines below it are its cases: the first that fits counts"),
    ("`unfoldable pub name : T`", "the same; the prover opens it only where a proof says so"),
    ("`pub record Name (x : A) : Type 0 where`", "a statement about `x`: all its fields hold"),
    ("`pub data Name : Type 0 where`", "a type whose values are those of its cases"),
]

# What stands in the clauses of functions.
CLAUSES = [
    ("`requires NAME { P }`", "whoever calls must see to it that `P`"),
    ("`ensures NAME { P }`", "when the call has returned, `P`"),
    ("`result`", "what the call returns"),
    ("`x.old`, `x.new`", "of a parameter that may be changed: at entry, and when the call returns"),
    ("`x.now`", "of one that is only read"),
    ("`M.disk`, `M.now`, `I.left`, `S.state`", "meanings that a trait names for contracts alone, and that no code can ask for: "
     "what the disk of a machine holds at each moment, at which moment it is, what a source has left, what a scratch device keeps. "
     "`M.disk machine.old (M.now machine.old)` is what the disk holds when the call begins"),
]

READ_ALOUD = """\
A definition, read aloud. What a crash may leave of a disk is

    pub record IsImage (state : DiskState) (image : List ℕ) : Type 0 where
      pub no_shorter : state.synced ≤ length image
      pub no_longer : length image ≤ state.most
      pub same : (i : ℕ) → i < length image → is_pending state.pending i ≡ false
          → get_or image i 0 ≡ get_or state.content i 0

"Some bytes, `image`, are what a crash may leave of a disk in this state, where: they are no shorter than
the disk was when it was last synced; they are no longer than it has ever been since; and for each offset
`i` within them, if no write since then went over it, the byte there is that of the disk's content." Of
a byte that was written and not synced nothing is said: it may be any.

A clause, read aloud: `untouched` of `run` is

    ensures untouched { (command : Option Commands) → IsCommand (map string_bytes words.now) command
        → changes_log command ≡ false → Stays M.now M.disk machine.old machine.new }

"When `run` has returned: for each command, or none, if that is what the words are, and if it is one that
doesn't change the log, then the disk stays: at each moment from the beginning of the call to its end it is
as it was."
"""
