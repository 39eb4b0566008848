"""Copies of structs."""
import unittest

from ..emit.copies import clone_impl, is_copied, parts_of
from . import given


def declared(body):
    """The type A of this module."""
    one = given(body)
    one.meaning("A")
    return one.meanings.declarations.by_name["A"]


def struct_of(count, start=""):
    """A struct of so many members, whose names begin with these letters."""
    members = ", ".join(f"{start}{chr(97 + it)} [{it}] BOOLEAN" for it in range(count))
    return declared(f"A ::= SEQUENCE {{ {members} }}")


class Parts(unittest.TestCase):
    def test_they_are_about_equally_long(self):
        lengths = {2: [2], 8: [8], 9: [4, 5], 16: [8, 8], 17: [5, 6, 6], 25: [6, 6, 6, 7]}
        self.assertEqual(lengths, {it: [len(part) for part in parts_of(struct_of(it))] for it in lengths})

    def test_one_member_is_derived(self):
        self.assertEqual([False, True], [is_copied(struct_of(it)) for it in (1, 2)])
        self.assertFalse(is_copied(declared("A ::= CHOICE { a NULL, b BOOLEAN }")))


class Impl(unittest.TestCase):
    def text(self, count, start=""):
        return "\n".join(clone_impl(struct_of(count, start)))

    def test_each_member_is_a_copy(self):
        text = self.text(2)
        self.assertIn("    ghost is_clone = { λ x y. ⟦<ExplicitContextTag0<bool> as Clone>⟧.is_clone x.a y.a\n        × ⟦<", text)
        self.assertIn("        let (a, b) = copies::two(&self.a, &self.b)?;\n        Ok(A { a, b })\n", text)

    def test_a_call_with_an_argument_on_each_line(self):
        text = self.text(5, "member-")
        self.assertIn("        let (member_a, member_b, member_c, member_d, member_e) = copies::five(\n            &self.member_a,\n", text)

    def test_a_call_on_the_next_line(self):
        text = self.text(5, "a-long-name-")
        names = "a_long_name_a, a_long_name_b, a_long_name_c, a_long_name_d, a_long_name_e"
        self.assertIn(f"        let ({names}) =\n            copies::five(\n                &self.a_long_name_a,\n", text)

    def test_names_on_lines_of_their_own(self):
        text = self.text(7, "a-long-name-")
        self.assertIn("        let (\n            a_long_name_a,\n", text)
        self.assertIn("            a_long_name_g,\n        ) = copies::seven(\n            &self.a_long_name_a,\n", text)


if __name__ == "__main__":
    unittest.main()
