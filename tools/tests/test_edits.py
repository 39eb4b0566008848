"""Wrong bodies: how they are written, and which functions they change."""
import tempfile
import unittest
from pathlib import Path

from shared import edits
from shared.edits import BadEdit, Edit

LIB = """\
use crate::laws;

pub fn one() -> u8 { 1 }

impl Level {
    const TOP: u8 = 9;

    pub fn up(&self) -> u8 { self.0 + 1 }
}

impl Clone for Level {
    ghost meant = { same };

    fn clone(&self) -> Level { Level(self.0) }
}
"""
LAWS = "pub fn copies() ensures are_same { same } {}\n"
TEXTS = {"src/lib.rt": LIB, "src/laws.rt": LAWS, "specs/Level.antt": "top = 9\n"}


def edit(name: str, *lines: str, path: str = "src/lib.rt") -> Edit:
    """An edit with these lines."""
    return Edit(name, path, list(lines))


class Lines(unittest.TestCase):
    def test_pairs_of_one_or_more_files(self) -> None:
        it = edit("lib.one.is_two", "old: { 1 }", "new: { 2 }", "file: src/laws.rt", "old: same", "new: ", "old: {}", "new: {;}")
        pairs = [("src/lib.rt", "{ 1 }", "{ 2 }"), ("src/laws.rt", "same", ""), ("src/laws.rt", "{}", "{;}")]
        self.assertEqual((pairs, ""), (it.pairs, it.problem))

    def test_survivors(self) -> None:
        for word in ("survives", "survives by hand"):
            it = edit("lib.one.is_two", f"{word}: why: so", "old: { 1 }", "new: { 2 }")
            self.assertEqual((word, "why: so"), (it.known, it.why))

    def test_comments_and_empty_lines(self) -> None:
        self.assertEqual("", edit("lib.one.is_two", "// a comment", "", "old: { 1 }", "new: { 2 }").problem)

    def test_other_lines(self) -> None:
        for lines in ([], ["old: 1"], ["new: 1", "old: 2"], ["old: 1", "new: 2", "survives: x"], ["a comment", "old: 1", "new: 2"]):
            with self.assertRaises(BadEdit):
                edit("lib.one.is_two", *lines).applied(TEXTS)


class Applied(unittest.TestCase):
    def test_the_texts_with_an_edit(self) -> None:
        texts = edit("lib.one.is_two", "old: { 1 }", "new: { 2 }").applied(TEXTS)
        self.assertEqual(TEXTS | {"src/lib.rt": LIB.replace("{ 1 }", "{ 2 }")}, texts)

    def test_an_old_text_is_there_once(self) -> None:
        for old in ("", "not there", "self.0"):
            with self.assertRaises(BadEdit):
                edit("lib.one.is_two", f"old: {old}", "new: x").applied(TEXTS)


class LookedAt(unittest.TestCase):
    def own(self, name: str, *lines: str, path: str = "src/lib.rt") -> list[edits.Function]:
        """The functions that an edit is about."""
        it = edit(name, *lines, path=path)
        it.look_at(TEXTS)
        return it.own

    def refused(self, name: str, *lines: str, path: str = "src/lib.rt") -> None:
        with self.assertRaisesRegex(BadEdit, "the function in its name"):
            self.own(name, *lines, path=path)

    def test_a_function_that_changes(self) -> None:
        self.assertEqual([("src/lib.rt", "", "one")], self.own("lib.one.is_two", "old: { 1 }", "new: { 2 }"))
        self.assertEqual([("src/lib.rt", "Level", "up")], self.own("lib.Level-up.stays", "old: self.0 + 1", "new: self.0"))

    def test_a_function_that_another_one_is_named_for(self) -> None:
        self.refused("lib.one.stays", "old: self.0 + 1", "new: self.0")
        self.refused("lib.LevelClone-up.stays", "old: self.0 + 1", "new: self.0")
        self.refused("lib.two.is_two", "old: { 1 }", "new: { 2 }")
        self.refused("laws.one.is_two", "file: src/lib.rt", "old: { 1 }", "new: { 2 }")

    def test_a_law_by_what_it_is_about(self) -> None:
        own = self.own("laws.copies.are_higher", "file: src/lib.rt", "old: Level(self.0)", "new: Level(9)")
        self.assertEqual([("src/laws.rt", "", "copies")], own)

    def test_what_a_function_uses(self) -> None:
        self.assertEqual([("src/lib.rt", "Level", "up")], self.own("lib.up.from_8", "old: TOP: u8 = 9", "new: TOP: u8 = 8"))
        self.assertEqual([("src/lib.rt", "", "one")], self.own("lib.one.of_8", "file: specs/Level.antt", "old: 9", "new: 8"))

    def test_an_implementation(self) -> None:
        self.assertEqual([], self.own("lib.LevelClone.means_another", "old: { same }", "new: { other }"))
        self.assertEqual([], self.own("lib.Level-TOP.is_8", "old: TOP: u8 = 9", "new: TOP: u8 = 8"))
        self.refused("lib.Step.means_another", "old: { same }", "new: { other }")
        self.refused("lib.Level.stays", "old: Level(self.0)", "new: Level(9)")

    def test_an_implementation_that_is_added(self) -> None:
        added = "impl Drop for Level { fn drop(&mut self) {} } impl Level {"
        self.assertEqual([("src/lib.rt", "LevelDrop", "drop")], self.own("lib.LevelDrop.does_nothing", "old: impl Level {", f"new: {added}"))
        self.refused("lib.LevelEq.does_nothing", "old: impl Level {", f"new: {added}")

    def test_an_implementation_without_functions_that_is_added(self) -> None:
        added = "impl Clone for Step { fn clone(&self) -> Step { Step } } impl Inhabited for Step { ghost example = { e }; } impl Level {"
        self.assertEqual([("src/lib.rt", "StepClone", "clone")], self.own("lib.StepInhabited.is_empty", "old: impl Level {", f"new: {added}"))
        self.refused("lib.StepFaithful.is_empty", "old: impl Level {", f"new: {added}")

    def test_an_implementation_that_is_there_where_others_are_added(self) -> None:
        added = "impl Drop for Level { fn drop(&mut self) {} } impl Level {"
        self.assertEqual([("src/lib.rt", "LevelDrop", "drop")], self.own("lib.LevelClone.is_dropped", "old: impl Level {", f"new: {added}"))
        self.refused("lib.LevelClone.is_dropped", "old: impl Level {", f"new: {added}", "old: { 1 }", "new: { 2 }")

    def test_the_laws_that_quote_what_it_adds(self) -> None:
        laws = """pub fn copies()
    ensures level { IsKept ⟦<Level as Clone>⟧.is_clone (λ it. it) }
    ensures of { (n : N) → IsKept ⟦<Of<N> as Clone>⟧.is_clone (λ it. it) }
{}
pub fn copied() ensures { IsKept ⟦<Level as Clone>⟧.is_clone (λ it. it) } { 1 }
"""
        it = edit("lib.LevelClone-clone.is_9", "old: Level(self.0)", "new: Level(9)")
        it.look_at(TEXTS | {"src/laws.rt": laws})
        self.assertEqual({("src/laws.rt", "", "copies"): {"returns", "returns-clause-level"}}, it.laws)

    def test_comments_and_spaces_change_nothing(self) -> None:
        it = edit("lib.one.is_spaced", "old: { 1 }", "new: {   /* one */ 1 }")
        it.look_at(TEXTS)
        self.assertEqual({}, it.changed)


class Files(unittest.TestCase):
    def setUp(self) -> None:
        self.room = tempfile.TemporaryDirectory()
        self.addCleanup(self.room.cleanup)
        self.folder = Path(self.room.name)

    def put(self, path: str, text: str) -> None:
        """Writes a file of the crate."""
        (self.folder / path).parent.mkdir(exist_ok=True)
        (self.folder / path).write_text(text, encoding="utf-8")

    def found(self, kind: str = "wrong-bodies") -> list[tuple[str, str]]:
        """The names and problems of the edits."""
        return [(it.name, it.problem) for it in edits.edits_of(self.folder, kind)]

    def test_no_folder(self) -> None:
        self.assertEqual([], self.found())

    def test_modules_and_functions(self) -> None:
        body = "old: 1\nnew: 2\n"
        self.put("wrong-bodies/src.bodies", f"// both\n# level\n\n## up.stays\n{body}\n## up.falls\n{body}\n# laws\n## copies.differ\n{body}")
        self.put("wrong-bodies/impls.bodies", f"# impls-numbers\n\n## BoolClone-clone.is_true\n{body}")
        names = ["impls-numbers.BoolClone-clone.is_true", "level.up.stays", "level.up.falls", "laws.copies.differ"]
        self.assertEqual([(it, "") for it in names], self.found())
        self.assertEqual("src/impls/numbers.rt", edits.edits_of(self.folder, "wrong-bodies")[0].pairs[0][0])

    def test_more_files_for_a_folder(self) -> None:
        self.put("wrong-bodies/src-times.bodies", "# time\n\n## now.is_0\nold: 1\nnew: 2\n")
        self.assertEqual([("time.now.is_0", "")], self.found())

    def test_what_is_derived_for_a_module(self) -> None:
        self.put("wrong-bodies/src.bodies", "# point-derived\n\n## from_parts.is_0\nold: 1\nnew: 2\n")
        self.put("wrong-bodies/impls.bodies", "# impls-numbers-derived\n\n## from_parts.is_0\nold: 1\nnew: 2\n")
        found = edits.edits_of(self.folder, "wrong-bodies")
        self.assertEqual(["", ""], [it.problem for it in found])
        self.assertEqual(["src/impls/numbers/derived.rt", "src/point/derived.rt"], [it.pairs[0][0] for it in found])

    def test_the_file_of_another_folder(self) -> None:
        self.put("wrong-bodies/src.bodies", "# impls-numbers\n\n## up.stays\nold: 1\nnew: 2\n")
        problem = "the bodies of this module belong in impls.bodies, and not in src.bodies"
        self.assertEqual([("impls-numbers.", problem), ("impls-numbers.up.stays", "")], self.found())

    def test_lines_in_no_section(self) -> None:
        self.put("wrong-bodies/src.bodies", "old: 1\nnew: 2\n# level\nold: 1\nnew: 2\n")
        self.assertEqual(["src.bodies", "level."], [name for name, problem in self.found() if problem])

    def test_a_module_without_bodies(self) -> None:
        self.put("wrong-bodies/src.bodies", "# level\n")
        self.assertEqual(["level."], [name for name, problem in self.found() if problem])

    def test_edits_of_the_gate(self) -> None:
        self.put("must-fail/level.up.stays.edit", "file: src/level.rt\nold: 1\nnew: 2\n")
        self.put("must-fail/README", "")
        self.assertEqual([("README", "no file in must-fail/ has such a name"), ("level.up.stays", "")], self.found("must-fail"))
