"""What tools/generate writes: the modules of folders, comparisons without layout, and the rows of types."""
import unittest

from generation import constraints, content_specs, contents, files, kinds, table


class Files(unittest.TestCase):
    def test_modules_of_a_folder(self) -> None:
        found = files.with_modules({"crates/a/src/generated/two.rt": ["impl A {}"], "crates/a/src/generated/one.rt": ["pub struct B;"]})
        self.assertEqual(["pub mod one;", "mod two;"], found["crates/a/src/generated.rt"][-2:])

    def test_proofs_are_no_modules(self) -> None:
        path = "crates/a/proofs/generated/one/f/Answers.antt"
        self.assertEqual({path: []}, files.with_modules({path: []}))

    def test_a_comparison_without_layout(self) -> None:
        self.assertEqual(files.bare("f(\n    a,\n    b,\n)"), files.bare("f(a, b)"))
        self.assertNotEqual(files.bare("f(a, b)"), files.bare("f(b, a)"))


class Rows(unittest.TestCase):
    def test_the_names_of_files(self) -> None:
        self.assertEqual(["relative_oid", "integer"], [table.snake(it) for it in ("RelativeOid", "Integer")])

    def test_each_form_is_known(self) -> None:
        for row in table.contents():
            with self.subTest(row.name):
                self.assertIn(row.form, contents.FORMS)

    def test_terms_and_sets_are_named_once(self) -> None:
        names = [row.term for row in (*table.kinds(), *table.contents())] + [name for row in table.characters() for name in row.asn1]
        self.assertEqual(len(names), len(set(names)))

    def test_a_kind_has_its_notation_and_is_exact(self) -> None:
        row = table.Kind("A", "1", "X", 1, "OWN", "λ it. t it", "e", ["Exact.e"], "b", "X")
        self.assertEqual(
            ["impl Notated for A {", "ghost values = { plain_values Notation.X (λ it. t it) e };"],
            [line.strip() for line in kinds.implementations(row) if "impl Notated" in line or "values" in line],
        )

    def test_cases_by_tag(self) -> None:
        self.assertEqual("if tag == 0x0C then a\n    else b", content_specs.by_tag([(12, "a")], "b"))
        self.assertEqual("if tag == 0x0C then a\n    else (if tag == 0x1E then b\n    else c)", content_specs.by_tag([(12, "a"), (30, "b")], "c"))

    def test_a_constraint_that_denies(self) -> None:
        words = {row.name: constraints.words_of(row) for row in table.constraints()}
        self.assertEqual(("None", "Some(OtherThan { value })"), (words["OtherThan"]["then"], words["OtherThan"]["else"]))
        self.assertEqual("not (is_between (pos N) (pos N) (T.number value))", words["OtherThan"]["allows"])
        self.assertEqual("Some(AtLeast { value, least: PhantomData })", words["AtLeast"]["then"])
        self.assertEqual("is_between (pos MIN) (pos MAX) (T.number value)", words["InRange"]["allows"])
