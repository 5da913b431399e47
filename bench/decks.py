"""Makes the large decks that bench/measure measures. Each maker gives the cards of one deck; DECKS lists them."""

from collections import namedtuple

LIMIT = 1048576
DIGITS = "0123456789ABCDEFGHIJKLMNOPQRSTUVWXYZ"
LETTERS = DIGITS[10:]

# title: the name of the deck. asked: the words to give. said: what a refusal says, or None where the deck has conditions.
# told: the deck in one line. cards: its maker.
Deck = namedtuple("Deck", "title asked said told cards")


# ---- parts of cards


def name(number, first=LETTERS):
    """The name of a number: short ones first, all different, each with a letter of `first` in front."""
    length, count = 0, len(first)
    while number >= count:
        number -= count
        length += 1
        count = len(first) * 36**length
    tail = ""
    for _ in range(length):
        number, digit = divmod(number, 36)
        tail = DIGITS[digit] + tail
    return first[number] + tail


def integer(number):
    """The same for names that are integers without a declaration."""
    return name(number, "IJKLMN")


def labelled(label, text):
    return f"{label:>5} {text}"


def statement(text):
    """The cards of a statement, broken at column 72."""
    parts = [text[at : at + 66] for at in range(0, len(text), 66)]
    return ["      " + parts[0]] + ["     1" + part for part in parts[1:]]


def note(words):
    """The cards of a note, broken between words."""
    cards, line = [], "C$"
    for word in words:
        if len(line) + 1 + len(word) > 72:
            cards.append(line)
            line = "C$+"
        line += " " + word
    return cards + [line]


def unit(head, lines, input_terms=("T",), output_terms=("T",), declared=()):
    """The cards of a SUBROUTINE, with its RETURN and END."""
    cards = statement("SUBROUTINE " + head)
    for text in declared:
        cards += statement(text)
    cards += note(["INPUT", *input_terms]) + note(["OUTPUT", *output_terms])
    return cards + list(lines) + ["      RETURN", "      END"]


# ---- notes


def many_notes():
    """40,000 TRYs and 20,000 PROOFs, each of another condition, behind a small unit."""
    cards = unit("P", [])
    for number in range(60000):
        if number % 3 == 2:
            cards.append(f"C$ PROOF X{name(number // 3)} (SAME)")
        else:
            cards.append("C$ TRY P (I 1)")
    return cards


def long_note():
    """An INPUT of as many terms as there is room for; each has a number of its own."""
    terms = (f"(ZLEQ {number} I)" for number in range(66000))
    return unit("P(I)", ["      I=1"], input_terms=terms)


def definitions():
    """Each definition uses the one before it."""
    built_in = {"AND", "OR", "NOT", "IF", "PUT", "ELT", "OLD"}
    free = [text for text in map(name, range(48000 + len(built_in))) if text not in built_in]
    cards = [f"C$ DEFN {free[0]} () 1"]
    cards += [f"C$ DEFN {text} () ({before})" for before, text in zip(free, free[1:])]
    return cards + unit("P", [])


# ---- flow


def nested_dos(lines):
    """40,000 DOs that end at the statement labelled 1, with lines before that statement."""
    return [f"      DO1{integer(number)}=1,2" for number in range(40000)] + lines + ["    1 CONTINUE"]


def dos():
    """No path comes to the DOs: behind them all a GO TO leads out, and another leads past them."""
    return unit("P", ["      GOTO2"] + nested_dos(["      GOTO2"]) + ["    2 CONTINUE"])


def cut_dos():
    """The last statement of the DOs has an ASSERT, from which there are 40,001 paths."""
    return unit("P", nested_dos(["C$ ASSERT T CLOCK 1"]))


def jumps():
    return [labelled(number, f"GOTO({number + 1}),I") for number in range(1, 20001)]


def gotos():
    return unit("P(I)", ["      GOTO20001"] + jumps() + [labelled(20001, "CONTINUE")])


def met_gotos():
    return unit("P(I)", jumps() + [labelled(20001, "CONTINUE")])


def nested_ifs():
    return ["      IF(L)THEN"] * 24000 + ["      ENDIF"] * 24000


def ifs():
    return unit("P(L)", ["      GOTO1"] + nested_ifs() + ["    1 CONTINUE"], declared=["LOGICAL L"])


def met_ifs():
    return unit("P(L)", nested_ifs(), declared=["LOGICAL L"])


# ---- calls

# stands behind the names of units where a dummy could have the same name else
MARK = "XX"


def chain(count):
    """Units in the order in which each calls the next."""
    cards = []
    for number in range(count):
        called = [f"      CALL {name(number + 1)}"] if number + 1 < count else []
        cards += unit(name(number), called)
    return cards


def long_chain():
    return chain(7000)


def shorter_chain():
    return chain(4096)


def passed_on():
    """The last unit of the chain assigns to all dummies, so each unit changes 400 names."""
    names = [integer(number) for number in range(222)]
    others = [text for text in map(name, range(26 + 26 * 36)) if text[0] not in "IJKLMN"][:178]
    row = ",".join(names + others)
    declared = ["INTEGER " + ",".join(others)]
    cards = []
    for number in range(300):
        if number < 299:
            lines = statement(f"CALL {name(number + 1)}{MARK}({row})")
        else:
            lines = [f"      {text}=1" for text in names + others]
        cards += unit(f"{name(number)}{MARK}({row})", lines, declared=declared)
    return cards


def all_earlier():
    """The first unit changes its dummy, so each call does."""
    cards = unit("A0(I)", ["      I=1"])
    for number in range(1, 100):
        cards += unit(f"A{number}(I)", [f"      CALL A{called}(I)" for called in range(number)])
    return cards


def common(changed=1):
    """40 blocks of 90 entities; no path comes to the CALLs of a unit that declares all blocks and changes some entities."""
    blocks = [[integer(300 + 90 * block + item) for item in range(90)] for block in range(40)]
    declared = [f"COMMON/B{number}/" + ",".join(names) for number, names in enumerate(blocks)]
    entities = [entity for names in blocks for entity in names]
    cards = unit("S", [f"      {entity}=1" for entity in entities[:changed]], declared=declared)
    lines = ["      GOTO1"] + ["      CALL S"] * 4000 + ["    1 CONTINUE"]
    return cards + unit("P", lines, declared=declared)


def changed_common():
    """The same, where the called unit changes all entities."""
    return common(3600)


def calls_with_outputs():
    """400 units with 25 CALLs each of one that counts up."""
    counted = ("(EQUAL I (ZPLUS (OLD I) 1))",)
    cards = unit("S(I)", ["      I=I+1"], input_terms=("(DEFINED I)",), output_terms=counted)
    for number in range(400):
        cards += unit(f"A{number}(I)", ["      CALL S(I)"] * 25)
    return cards


# ---- paths and conditions


def assignments():
    return [f"      {'IJKLMN'[number % 6]}={number % 997}" for number in range(30000)]


def forks():
    return ["      IF(.TRUE.)I=1"] * 12


def paths_behind():
    return unit("P", assignments() + forks())


def paths_with():
    return unit("P", forks() + assignments())


def conditions():
    """4,096 units with 20 terms of OUTPUT each. A path weighs 3 at its start, and each condition 2 more than the last: 1,966,080 in all."""
    terms = [str(number) for number in range(1, 10)] + ["T"] * 11
    return [card for number in range(4096) for card in unit(name(number), [], output_terms=terms)]


def long_definition():
    """3,885 units, each with 20 terms of OUTPUT; the definition stands in INPUT, and in the first term of OUTPUT."""
    numbers = [str(number) for number in range(85000)]
    numbers[-1] += ")"
    cards = note(["DEFN", "A", "()", "(AND", *numbers])
    for number in range(3885):
        cards += unit(name(number), [], input_terms=("(A)",), output_terms=["(A)"] + ["T"] * 19)
    return cards


# ---- one thing that is long or deep


def many_arguments():
    """A definition by an AND of 60,000 arguments, which the OUTPUT uses."""
    return note(["DEFN", "A", "()", "(AND", *["T"] * 59999, "T)"]) + unit("P(I)", ["      I=1"], output_terms=("(A)",))


def many_parameters():
    """A definition of 30,000 parameters."""
    names = [text + "Q" for text in map(name, range(30000))]
    return note(["DEFN", "A", "(" + names[0], *names[1:-1], names[-1] + ")", names[-1]]) + unit("P(I)", ["      I=1"])


def nested():
    """Each MAX0 of 656 operands is a term of 655 brackets that stand one in another; each statement's stands in the next one's."""
    return unit("P(J)", [card for _ in range(25) for card in statement("J=MAX0(J" + ",1" * 655 + ")")])


def operands():
    """The longest sum that a statement has room for, on no path."""
    return unit("P(I)", ["      GOTO1"] + statement("J=I" + "+I" * 658) + ["    1 CONTINUE"])


def puts():
    """20 elements of an array of 1,000,000 are set, and 170 are read."""
    set_ = [f"      A({number + 1})={number}" for number in range(20)]
    read = [f"      J=A({number % 20 + 1})" for number in range(170)]
    return unit("P(I)", set_ + read, declared=["INTEGER A(1000000)"])


def doublings():
    """14 doublings, so that the last sum is one of 16,384 where it is written out; tried with 50 values."""
    tries = [f"C$ TRY P-1-14 (LEAST -32768) (GREATEST 32767) (I-IN {number % 3 - 1})" for number in range(50)]
    return unit("P(I)", ["      I=I+I"] * 14) + tries


MANY = "REFUSED 46 ManyPaths CARD "
HEAVY = "REFUSED 48 Heavy CARD "

DECKS = [
    Deck("small", "vc", None, "a unit with one statement: what a start takes", lambda: unit("P(I)", ["      I=1"])),
    Deck("notes", "vc", None, "60,000 one-line notes", many_notes),
    Deck("long-note", "vc", None, "one note of a megabyte", long_note),
    Deck("definitions", "vc", None, "48,000 definitions, each by the one before", definitions),
    Deck("dos", "vc", None, "40,000 DOs with one last statement, on no path", dos),
    Deck("dos-met", "vc", MANY + "1", "the same on 40,001 paths", cut_dos),
    Deck("gotos", "vc", None, "20,000 computed GO TOs, each to a label of its own, on no path", gotos),
    Deck("gotos-met", "vc", HEAVY + "1", "the same on one path", met_gotos),
    Deck("ifs", "vc 77", None, "block IFs 24,000 deep, on no path", ifs),
    Deck("ifs-met", "vc 77", MANY + "1", "the same on 24,001 paths", met_ifs),
    Deck("chain", "vc", None, "4,096 units in a chain of calls", shorter_chain),
    Deck("chain-long", "vc", MANY + "24577", "7,000 units in a chain of calls", long_chain),
    Deck("passed-on", "vc", None, "300 units in a chain, each passing on 400 dummies", passed_on),
    Deck("all-earlier", "vc", None, "100 units that each call all earlier ones", all_earlier),
    Deck("common", "vc", None, "4,000 CALLs under 3,600 COMMON entities, on no path", common),
    Deck("common-changed", "vc", None, "the same CALLs of a unit that changes all of them", changed_common),
    Deck("outputs", "vc", None, "10,000 CALLs with their OUTPUTs", calls_with_outputs),
    Deck("paths-behind", "vc", None, "4,096 paths behind 30,000 statements", paths_behind),
    Deck("paths-with", "vc", None, "4,096 paths with 30,000 statements each", paths_with),
    Deck("conditions", "vc", None, "81,920 conditions", conditions),
    Deck("long-definition", "vc", None, "one definition of 85,000 numbers under 77,700 conditions", long_definition),
    Deck("arguments", "vc", None, "a definition by an AND of 60,000 arguments", many_arguments),
    Deck("parameters", "vc", None, "a definition of 30,000 parameters", many_parameters),
    Deck("nested", "vc", None, "25 statements whose terms nest 16,375 brackets", nested),
    Deck("operands", "vc", None, "a sum of 659 operands", operands),
    Deck("puts", "vc", None, "20 elements of an array of 1,000,000 are set, 170 read", puts),
    Deck("doublings", "try", None, "14 doublings, with 50 TRYs", doublings),
]


def text_of(deck):
    """The bytes of a deck, which is no longer than a deck may be."""
    text = "".join(card + "\n" for card in deck.cards()).encode()
    if len(text) > LIMIT:
        raise ValueError(f"{deck.title} has {len(text)} bytes")
    return text
