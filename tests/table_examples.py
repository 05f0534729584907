"""Texts with what `exchange` prints for them, worked out by hand from the pages on text and on rules."""


def lines(*lines):
    return "".join(f"{line}\n" for line in lines).encode()


# Names of each kind. Their terms are A 0, B 1, J 2, k 3, P 4 and its mate 5, T 6, F 7, so that the next one is 8; the next line begins at
# byte 56. Nobody has more than the own name.
NAMES = b"party A B\nnumber J\nshared k\npublic P\ntable T\nfunction F\n"
ONLY_NAMES = ["1 0 GIVEN 0", "2 0 GIVEN 1"]


def given(term, *more):
    """What is listed after initial knowledge of A, a term that is given whole, and what A takes of it."""
    return lines("1 0 GIVEN 0", f"1 1 GIVEN {term}", *(f"1 {number} {line}" for number, line in enumerate(more, 2)), "2 0 GIVEN 1")


THE_FIRST_TABLE = lines(
    "0 0 FROM 0", "0 1 TO 1", "0 2 RECV 3", "0 3 RIGHT 2",
    "1 0 GIVEN 0", "1 1 GIVEN 1", "1 2 FRESH 2", "1 3 JOIN 0 2", "1 4 SEND 3 1",
    "2 0 GIVEN 1", "2 1 FROM 0", "2 2 RECV 3", "2 3 LEFT 2", "2 4 SAME 3 1", "2 5 RIGHT 2",
)

GRANTED = [
    (b"party U S\nnumber J\nown U S\nline U S (U J)\n", THE_FIRST_TABLE),
    (b"  party U  S\n\n \nnumber J \nown U S\n line U S( U J )", THE_FIRST_TABLE),
    (b"", b""),
    (b" \n\n   \n", b""),
    (b" " * 32768, b""),
    (b"\n" * 32768, b""),
    (b"number J\ntable party1\nfunction Own shared1", b""),
    (b"party " + b"a" * 16, lines("1 0 GIVEN 0")),
    (b"party a234567890123456 PARTY partyU", lines("1 0 GIVEN 0", "2 0 GIVEN 1", "3 0 GIVEN 2")),
    (NAMES, lines(*ONLY_NAMES)),
    (NAMES + b"own A A\nown B (B B)", lines(*ONLY_NAMES)),
    (NAMES + b"own A B", given(1)),
    (NAMES + b"own A T[A]'", given(9)),
    (NAMES + b"own A T[A]''", given(8)),
    (NAMES + b" own  A  T [ A ] ' ' ", given(8)),
    (NAMES + b"own A P'", given(5)),
    (NAMES + b"own A P''", given(4)),
    (NAMES + b"own A k'", given(3)),
    (NAMES + b"own A k" + b"'" * 32000, given(3)),
    # the content is built first, and a mate that is there already needs no new place
    (NAMES + b"own A {(A B)}P'", given(9)),
    (NAMES + b"own A {A}k'", given(8)),
    (NAMES + b"own A {T[A]}T[B]'", given(11)),
    (NAMES + b"own A F<(A B)>", given(9)),
    (NAMES + b"own A F<F<A>>", given(9)),
    # (A B J) is the pair of A with the pair of B and J
    (NAMES + b"own A (A B J)", given(9, "RIGHT 1", "LEFT 2", "RIGHT 2")),
    # the parts are 0, 8 and 9, their pairs 10 and 11
    (NAMES + b"own A (A (B J) {B}k)", given(11, "RIGHT 1", "LEFT 2", "RIGHT 2", "LEFT 3", "RIGHT 3")),
    # A has its own name, and so all of this
    (NAMES + b"own A " + b"(A " * 64 + b"A" + b")" * 64, lines(*ONLY_NAMES)),
    (NAMES + b"own A (" + b"A " * 400 + b")", lines(*ONLY_NAMES)),
]

# A line, and how it is refused where it follows the names; after the number the place within the line.
REFUSED_AFTER_NAMES = [
    (b"own A {A B}k", "16", 9),
    (b"own A ()", "16", 7),
    (b"own A (A)", "16", 8),
    (b"own A {A}F<A>", "16", 10),
    (b"own A (A B)'", "16", 11),
    (b"own A F<A>'", "16", 10),
    (b"own A {A}{B}k", "16", 9),
    (b"own A {A}", "16", 9),
    (b"own A T'[A]", "16", 8),
    (b"own A T[A']", "16", 9),
    (b"own A", "16", 5),
    (b"own A \n", "16", 6),
    (b"own\n", "16", 3),
    (b"own 3", "16", 4),
    (b"own own", "16", 4),
    (b"own A A\r", "16", 7),
    (b"own\tA A", "16", 3),
    (b"own A A\0", "16", 7),
    (b"own A \x80", "16", 6),
    (b"own A " + b"A" * 17, "16", 6),
    (b"own A " + b"A" * 16, "17", 6),
    (b"A", "16", 0),
    (b"partyU", "16", 0),
    (b"  '", "16", 2),
    (b"party", "16", 5),
    (b"party C D'", "16", 9),
    (b"own A X $", "17", 6),
    (b"own A B X", "16", 8),
    (b"own J A", "17", 4),
    (b"own X $", "17", 4),
    (b"line A line X", "16", 7),
    (b"line A J A", "17", 7),
    (b"line A B X", "17", 9),
    (b"own A T[X]", "17", 8),
    (b"own A X[A]", "17", 6),
    (b"own A X<A>", "17", 6),
    (b"own A {A}X", "17", 9),
    (b"party C A", "18", 8),
    (b"number C C", "18", 9),
    (b"number C C $", "18", 9),
    (b"number A", "18", 7),
    (b"own A " + b"(A " * 65, "19", 198),
    (b"own A " + b"{" * 65, "19", 70),
    (b"own A " + b"F<" * 65, "19", 135),
    (b"own A " + b"(A " * 64 + b"T[A]", "19", 199),
    # the 64th is the entry's, within which no bracket may stand
    (b"own A " + b"(A " * 63 + b"T[(", "16", 197),
    (b"own A {A}A", "20", 0, 2),
    (b"  own A {A}A", "20", 0, 2),
    (b"own A A'", "20", 0, 2),
    (b"own A A[A]", "20", 0, 2),
    (b"own A T[T]", "20", 0, 2),
    (b"own A k<A>", "20", 0, 2),
    (b"line A A A", "20", 0, 6),
    (b"line A B A", "20", 0, 8),
    # all tokens before the first call
    (b"line A B A $", "16", 11),
    (b"own A ({A}A X)", "17", 12),
]

# A's script: both names, 499 pairs, SEND. B's: B, A, the message, the same pairs, SAME; and for each A after that four instructions more.
LONG_SCRIPT = b"party A B\nown A B\nline A B (" + b"A " * 500 + b")\n"

REFUSED = [
    (b"party", "16 5"),
    (b"party\n", "16 5"),
    (b"party A B\nown A X $", "17 16"),
    (b"party A B\nown A B X", "16 18"),
    (b"party A B\nline A line X", "16 17"),
    (b"party A B\nparty C A", "18 18"),
    (b"party A B\nnumber C C", "18 19"),
    (b"party " + b"a" * 17, "16 6"),
    (b" " * 32763 + b"party", "16 32768"),
    (b" " * 32769, "15 32768"),
    (b"$" * 32769, "15 32768"),
    (b"$" * 32768, "16 0"),
    (b"party A B C D E F G H", "20 0 4"),
    (b"party A B C D E F G H A", "18 22"),
    (b"number J\nparty A B C D E F G H\n$", "20 9 4"),
    (b"party A\nnumber " + b" ".join(b"n%d" % number for number in range(512)), "20 8 3"),
    (b"party A\nown A (" + b"A " * 16000 + b")", "20 8 3"),
    (b"party A\nown A (" + b"A " * 16000 + b"]", "16 32015"),
    # building comes before the call
    (b"party A B\nown A B\nline A B A\n own B A", "20 29 5"),
    (b"party A B\nown A B\nline A B A\n own B {A}A", "20 29 2"),
    # J is used, and so not fresh
    (b"party A B\nnumber J\nown A B\nown B J\nline A B J", "20 35 9"),
    (b"party A B\nown A B\n" + b"line A B A\n" * 65, "20 722 7"),
    (LONG_SCRIPT + b"line A B A\n" * 3, "20 1052 10"),
]

EXAMPLES = [
    *GRANTED,
    *((NAMES + line, lines(" ".join(map(str, ["refused", number, len(NAMES) + place, *more])))) for line, number, place, *more in REFUSED_AFTER_NAMES),
    *((text, lines(f"refused {refusal}")) for text, refusal in REFUSED),
]
