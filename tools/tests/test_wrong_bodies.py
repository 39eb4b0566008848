"""Wrong bodies: what follows from the checker's words, and which are tried at once."""
import contextlib
import io
import unittest
from unittest import mock

from shared import edits
from shared.checker import Said, judge, path_of
from shared.edits import Edit, Texts

from . import script

wrong_bodies = script("wrong-bodies")

# what the checker says, without what nothing is read from
PROVED = """\
checked mini::U16Formed::measure, 1 of 2
trait mini::Formed: proved
impl mini::U8Formed: proved
impl mini::U16Formed: proved
fn mini::U16Formed::measure: proved
fn mini::U8Formed::measure: proved
logic=proved functions=2 sum=dac8208d650f15bf
"""
CLAUSE = """\
trait mini::Formed: proved
impl mini::U8Formed: proved
impl mini::U16Formed: not proved; it waits for the proof of `measure`
note: src/lib.rt:24:5: it is not proved that what the function ensures holds when it returns (`returns`); the facts allow other values
fn mini::U16Formed::measure: no proof: expected answers in ./proofs/U16Formed/measure/Answers.antt; `search` did not prove `returns`
fn mini::U8Formed::measure: proved
logic=not-proved
"""
GHOST = """\
src/lib.rt:22:20: error: `form-value`: {}
impl mini::U8Formed: proved
impl mini::U16Formed: not proved; antt refuses `form-value` in `Rattle.mini.specs.contracts.U16Formed.TheImpl`: help: mend the term
fn mini::U16Formed::measure: no proof: its contract rests on `ghosts`, which antt did not admit: help: fix that first
fn mini::U8Formed::measure: proved
logic=not-proved
"""
NO_CONSTRUCTOR = GHOST.format("`Form.huge`: data type `Form` has no constructor `huge` and no derived definition `huge`")
NO_DEFINITION = GHOST.format("`gone` is not in scope; did you mean `None`?")
OTHER_TYPE = GHOST.format("expected type `Rattle.mini.specs.Form.Form`, but this has type `Prim.Native.Nat.ℕ`")
NO_IMPORT = "src/lib.rt:22:70: error: module `Rattle.mini.specs.Form` has no `gone` that can be named from here\nlogic=not-proved\n"
PROOF = """\
proofs/U16Formed/measure/Answers.antt:7:16: error: `returns`: {}
impl mini::U16Formed: not proved; it waits for the proof of `measure`
fn mini::U16Formed::measure: no proof: see the errors above
fn mini::U8Formed::measure: proved
logic=not-proved
"""
CALLER = """\
fn mini::U16Formed::measure: not proved; it calls `mini::U8Formed::measure`, which is not proved
fn mini::U8Formed::measure: no proof: `search` did not prove `returns`, `index`; it calls `x`
logic=not-proved
"""

CYCLE = """\
proofs/U16Formed/+sizes/Answers.antt:7:16: error: `{}`: expected type `A`
fn mini::U16Formed::measure: not proved
fn mini::U8Formed::measure: proved
logic=not-proved
"""

LIB = """\
impl Formed for u8 {
    ghost form = { Form.small };
    fn measure(&self) -> usize { 1 }
}
impl Formed for u16 {
    ghost form = { Form.large };
    fn measure(&self) -> usize { 2 }
}
"""
TEXTS = {"src/lib.rt": LIB}


def edit(name: str, old: str, new: str, *lines: str) -> Edit:
    """An edit of the file above."""
    it = Edit(f"lib.{name}", "src/lib.rt", [*lines, f"old: {old}", f"new: {new}"])
    it.look_at(TEXTS)
    return it


IS_3 = ("U16Formed-measure.is_3", "{ 2 }", "{ 3 }")
IS_4 = ("U16Formed-measure.is_4", "{ 2 }", "{ 4 }")
IS_5 = ("U8Formed-measure.is_5", "{ 1 }", "{ 5 }")
IS_HUGE = ("U16Formed.is_huge", "Form.large", "Form.huge")


def verdict(said: str, *of: str) -> tuple[str, str]:
    """The verdict and the reason for an edit alone."""
    it = edit(*of)
    return judge(Said("mini", said), it, [it])[:2]


class Verdicts(unittest.TestCase):
    def test_a_proved_function_survives(self) -> None:
        self.assertEqual(("survives", ""), verdict(PROVED, *IS_3))
        self.assertTrue(Said("mini", PROVED).is_proved)

    def test_a_goal_that_is_not_proved(self) -> None:
        self.assertEqual(("refused", "returns"), verdict(CLAUSE, *IS_3))
        self.assertFalse(Said("mini", CLAUSE).is_proved)

    def test_the_function_of_another(self) -> None:
        self.assertEqual(("survives", ""), verdict(CLAUSE, *IS_5))

    def test_an_implementation(self) -> None:
        self.assertEqual(("refused", "form-value"), verdict(OTHER_TYPE, *IS_HUGE))
        self.assertEqual(("refused", "returns"), verdict(CLAUSE, *IS_HUGE))
        self.assertEqual(("survives", ""), verdict(PROVED, *IS_HUGE))

    def test_an_implementation_that_is_added(self) -> None:
        added = "impl Clone for Step { fn clone(&self) -> Step { Step } } impl Inhabited for Step { ghost example = { e }; } impl Formed for u8 {"
        said = PROVED + "impl mini::StepClone: proved\nfn mini::StepClone::clone: proved\nimpl mini::StepInhabited: not proved; antt refuses `example-value` in `X`\n"
        self.assertEqual(("refused", "example-value"), verdict(said, "StepInhabited.is_empty", "impl Formed for u8 {", added))

    def test_nothing_is_said_of_the_function(self) -> None:
        self.assertEqual("bad", verdict("logic=not-proved\n", *IS_3)[0])

    def test_a_name_in_a_proof_file(self) -> None:
        for what in ("`c.first` is not in scope", "record `Goals` has no field `first`", "data type `T` has no constructor `b`"):
            self.assertEqual("names-only", verdict(PROOF.format(what), *IS_3)[0], what)
        self.assertEqual(("refused", "returns"), verdict(PROOF.format("expected type `A`"), *IS_3))

    def test_a_caller_of_what_is_not_proved(self) -> None:
        both = [edit(*IS_3), edit(*IS_5)]
        self.assertEqual(("waits", "", [both[1]]), judge(Said("mini", CALLER), both[0], both))
        self.assertEqual(("refused", "returns, index", []), judge(Said("mini", CALLER), both[1], both))

    def test_a_cycle_of_calls(self) -> None:
        self.assertEqual(("refused", "measure-returns"), verdict(CYCLE.format("measure-returns"), *IS_3))
        self.assertEqual(("refused", "not proved"), verdict(CYCLE.format("size-returns"), *IS_3))

    def test_functions_of_one_cycle_are_not_tried_at_once(self) -> None:
        text = "#[cycle(sizes)]\nfn one() -> u8 { 1 }\n#[cycle(sizes)]\nfn two() -> u8 { 2 }\nfn three() -> u8 { 3 }\n"
        of = [Edit(f"lib.{name}.is_7", "src/lib.rt", [f"old: {{ {it} }}", "new: { 7 }"]) for it, name in ((1, "one"), (2, "two"), (3, "three"))]
        for it in of:
            it.look_at({"src/lib.rt": text})
        self.assertEqual([False, True], [of[0].touched.isdisjoint(it.touched) for it in of[1:]])

    def test_a_text_with_a_name_that_is_not_there(self) -> None:
        for said in (NO_CONSTRUCTOR, NO_DEFINITION, NO_IMPORT):
            self.assertEqual([("src/lib.rt", 22)], [(it.path, it.line) for it in Said("mini", said).unread()], said)

    def test_a_text_that_is_read(self) -> None:
        for said in (PROVED, CLAUSE, OTHER_TYPE, CALLER, PROOF.format("`x` is not in scope")):
            self.assertEqual([], Said("mini", said).unread(), said)


LAWS = """\
#[derive(Clone, PartialEq)]
pub struct Size(u8);
#[derive(Clone)]
pub struct Form(u8);
pub fn copies()
    ensures size { IsKept ⟦<Size as Clone>⟧.is_clone (λ size. size) }
    ensures form { IsKept ⟦<Form as Clone>⟧.is_clone (λ form. form) }
{}
pub fn equality() ensures { IsEqualityOf ⟦<Size as PartialEq>⟧.eq (λ size. size) } {}
"""
BY_LAW = """\
impl mini::SizeClone: proved
fn mini::SizeClone::clone: proved
impl mini::FormClone: proved
fn mini::FormClone::clone: proved
fn mini::copies: no proof: expected answers in ./proofs/copies/Answers.antt; `search` did not prove {}
fn mini::equality: proved
logic=not-proved
"""


class Laws(unittest.TestCase):
    def edit(self, name: str, before: str, after: str, block: str) -> Edit:
        """An edit that derives something no more and adds an implementation of it."""
        it = Edit(f"lib.{name}", "src/lib.rt", [f"old: {before}", f"new: {after} {block}"])
        it.look_at({"src/lib.rt": LAWS})
        return it

    def setUp(self) -> None:
        self.size = self.edit("SizeClone-clone.is_zero", "#[derive(Clone, PartialEq)]", "#[derive(PartialEq)]", "impl Clone for Size { fn clone(&self) -> Size { Size(0) } }")
        self.form = self.edit("FormClone-clone.is_zero", "#[derive(Clone)]", "", "impl Clone for Form { fn clone(&self) -> Form { Form(0) } }")

    def judged(self, goals: str, it: Edit, *others: Edit) -> tuple[str, str, list[Edit]]:
        """The verdict on an edit that is tried with others."""
        return judge(Said("mini", BY_LAW.format(goals)), it, [it, *others])

    def test_a_law_refuses_what_its_clause_quotes(self) -> None:
        self.assertEqual(("refused", "returns-clause-size of copies", []), self.judged("`returns-clause-size`", self.size, self.form))
        self.assertEqual("survives", self.judged("`returns-clause-size`", self.form, self.size)[0])

    def test_a_law_that_quotes_two_of_them(self) -> None:
        self.assertEqual(("waits", "", [self.form]), self.judged("`returns`", self.size, self.form))
        self.assertEqual(("refused", "returns of copies", []), self.judged("`returns`", self.size))

    def test_a_law_that_is_proved(self) -> None:
        self.assertEqual("survives", judge(Said("mini", BY_LAW.replace("no proof", "proved").split(";")[0] + "\n"), self.size, [self.size])[0])


class FakeCrate:
    """A crate whose checker is a table: a text in the file, and what is said if it is there."""

    def __init__(self, table: dict[str, str]) -> None:
        self.name, self.table, self.checks, self.of_functions = "mini", table, 0, False
        self.texts, self.functions = TEXTS, edits.all_functions(TEXTS)

    def check_with(self, texts: Texts, batch: list[Edit]) -> Said:
        """What is said of these texts."""
        self.checks += 1
        said = [words for piece, words in self.table.items() if piece in texts["src/lib.rt"]]
        return Said("mini", (said or [PROVED])[0])


class Batches(unittest.TestCase):
    def tried(self, table: dict[str, str], *given: tuple[str, str, str]) -> dict[str, str]:
        """The verdicts on edits, by the ends of their names."""
        self.crate = FakeCrate(table)
        found = list(wrong_bodies.try_edits(self.crate, [edit(*it) for it in given]))
        self.assertEqual(len(given), len(found))
        return {it.name.rpartition(".")[2]: verdict for it, verdict, _ in found}

    def test_different_functions_are_tried_at_once(self) -> None:
        self.assertEqual({"is_3": "survives", "is_5": "survives"}, self.tried({}, IS_3, IS_5))
        self.assertEqual(1, self.crate.checks)

    def test_one_function_is_tried_twice(self) -> None:
        self.assertEqual({"is_3": "survives", "is_4": "refused"}, self.tried({"{ 4 }": CLAUSE}, IS_3, IS_4))
        self.assertEqual(2, self.crate.checks)

    def test_a_bad_one_is_found_alone(self) -> None:
        table = {"Form.huge": NO_CONSTRUCTOR, "{ 3 }": CLAUSE}
        self.assertEqual({"is_5": "survives", "is_3": "refused", "is_huge": "bad"}, self.tried(table, IS_5, IS_HUGE, IS_3))

    def test_no_verdict_is_bad(self) -> None:
        self.assertEqual({"is_3": "bad", "is_5": "survives"}, self.tried({"{ 3 }": "error: it ended"}, IS_3, IS_5))

    def test_a_caller_is_tried_again(self) -> None:
        table = {"{ 5 }": CALLER}
        self.assertEqual({"is_5": "refused", "is_3": "survives"}, self.tried(table, IS_3, IS_5))
        self.assertEqual(2, self.crate.checks)


class Functions(unittest.TestCase):
    def test_what_the_checker_calls_a_function(self) -> None:
        methods = edits.types_with_methods({"src/size.rt": "impl Size { fn new() -> Size { Size } }\nimpl Clone for Size { }", "specs/a.antt": "impl Form {}"})
        self.assertEqual({"Size"}, methods)
        self.assertEqual("Size::new", path_of(("src/size.rt", "Size", "new"), methods))
        self.assertEqual("impls::size::SizeClone::clone", path_of(("src/impls/size.rt", "SizeClone", "clone"), methods))
        self.assertEqual("copies", path_of(("src/lib.rt", "", "copies"), methods))

    def test_functions_alone_are_proved(self) -> None:
        for said, is_proved in (("only=12 proved=12", True), ("only=12 proved=1", False), ("only=0 proved=0", True)):
            self.assertEqual((True, is_proved), (Said("mini", said).is_judged, Said("mini", said).is_proved), said)

    def test_an_implementation_needs_a_whole_check(self) -> None:
        crate = FakeCrate({})
        crate.of_functions = True
        self.assertEqual([False, True], [edit(*it).is_of_function for it in (IS_HUGE, IS_3)])
        self.assertEqual(["bad"], [it[1] for it in wrong_bodies.found_of(crate, [edit(*IS_HUGE)])])


class Reports(unittest.TestCase):
    def reported(self, *found: tuple[str, str]) -> tuple[int, str]:
        """The status and the last line, for pairs of how an edit is known to survive and its verdict."""
        given = [("mini", (edit(*IS_3, *([f"{known}: why"] if known else [])), verdict, "")) for known, verdict in found]
        with contextlib.redirect_stdout(io.StringIO()) as out:
            status = wrong_bodies.report(given, False)
        return status, out.getvalue().splitlines()[-1]

    def test_each_verdict_that_is_right(self) -> None:
        right = [("", "refused"), ("survives", "survives"), ("", "applies")]
        right += [("survives by hand", it) for it in ("refused", "names-only", "survives")]
        self.assertEqual((0, "6 passed, 0 failed"), self.reported(*right))

    def test_each_verdict_that_is_wrong(self) -> None:
        wrong = [("", it) for it in ("survives", "names-only", "bad")]
        wrong += [("survives", it) for it in ("refused", "names-only", "bad")] + [("survives by hand", "bad")]
        self.assertEqual((1, "0 passed, 7 failed"), self.reported(*wrong))

    def test_two_of_one_name_do_not_apply(self) -> None:
        found = wrong_bodies.unapplied(FakeCrate({}), [edit(*IS_3), edit(*IS_5), edit(*IS_3)])
        self.assertEqual(["bad", "applies", "bad"], [it[1] for it in found])

    def test_what_applies_is_of_the_function_in_its_name(self) -> None:
        given = [Edit("lib.U8Formed-measure.is_3", "src/lib.rt", ["old: { 2 }", "new: { 3 }"])]
        self.assertEqual(["bad"], [it[1] for it in wrong_bodies.unapplied(FakeCrate({}), given)])

    def test_nothing_is_tried_in_a_crate_that_is_not_proved(self) -> None:
        crate = FakeCrate({})
        with mock.patch.object(FakeCrate, "check", lambda self, given: Said("mini", CLAUSE), create=True):
            self.assertEqual(["bad"], [it[1] for it in wrong_bodies.found_of(crate, [edit(*IS_3)])])
