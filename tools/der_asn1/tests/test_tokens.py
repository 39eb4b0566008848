"""The lexical items (X.680, 12)."""
import unittest

from ..parse.source import NotationError, Place, Problems
from ..parse.tokens import Kind, scan


def items(text):
    """The kinds and texts of the items, without the end."""
    return [(it.kind, it.text) for it in scan(text, "t", Problems())[:-1]]


class Items(unittest.TestCase):
    def test_names_by_their_first_letter(self):
        self.assertEqual([(Kind.UPPER, "Ab-C2"), (Kind.LOWER, "ab-c")], items("Ab-C2 ab-c"))

    def test_symbols_of_more_than_one_character(self):
        self.assertEqual(["::=", "..", "...", "[[", "]]"], [text for _, text in items("::= .. ... [[ ]]")])

    def test_a_range_of_numbers_is_no_real_number(self):
        self.assertEqual([(Kind.NUMBER, "1"), (Kind.SYMBOL, ".."), (Kind.NUMBER, "5")], items("1..5"))

    def test_real_numbers(self):
        self.assertEqual([(Kind.REAL, "1.5"), (Kind.REAL, "2.0e-3")], items("1.5 2.0e-3"))

    def test_strings(self):
        self.assertEqual([(Kind.BITS, "'0110'B"), (Kind.BITS, "'A0 F'H"), (Kind.TEXT, '"say ""so"""')], items("""'0110'B 'A0 F'H "say ""so""\""""))

    def test_fields(self):
        self.assertEqual([(Kind.UPPER, "C"), (Kind.SYMBOL, "."), (Kind.FIELD, "&Type")], items("C.&Type"))

    def test_places_count_from_one(self):
        tokens = scan("a\n  b", "t", Problems())
        self.assertEqual([Place("t", 1, 1), Place("t", 2, 3), Place("t", 2, 4)], [it.place for it in tokens])

    def test_a_string_over_lines_is_counted(self):
        self.assertEqual(Place("t", 2, 4), scan('"a\nb" c', "t", Problems())[1].place)


class Comments(unittest.TestCase):
    def test_a_comment_ends_at_the_line_or_at_hyphens(self):
        self.assertEqual(["a", "b", "c"], [text for _, text in items("a -- x -- b -- y\nc")])

    def test_block_comments_hold_others(self):
        self.assertEqual(["a", "b"], [text for _, text in items("a /* x /* y */ \n z */ b")])

    def test_lines_above_belong_to_the_next_item(self):
        self.assertEqual(["one", "two"], scan("-- one\n-- two\na", "t", Problems())[0].above)

    def test_lines_above_a_gap_belong_to_none(self):
        self.assertEqual(["two"], scan("-- one\n\n-- two\na", "t", Problems())[0].above)

    def test_a_comment_beside_an_item_is_its_own(self):
        first, second = scan("a -- one\nb", "t", Problems())[:2]
        self.assertEqual(("one", []), (first.beside, second.above))

    def test_a_comment_beside_an_item_continues_below(self):
        first, _, second = scan("a, -- one\n   -- two\nb", "t", Problems())[:3]
        self.assertEqual("", first.beside)
        self.assertEqual("one two", scan("a, -- one\n   -- two\nb", "t", Problems())[1].beside)
        self.assertEqual([], second.above)

    def test_a_comment_further_left_is_above_the_next(self):
        self.assertEqual(["two"], scan("abc, -- one\n-- two\nb", "t", Problems())[2].above)


class Refusals(unittest.TestCase):
    def refused(self, text):
        with self.assertRaises(NotationError) as caught:
            scan(text, "t", Problems())
        return str(caught.exception.problem)

    def test_a_character_that_begins_nothing(self):
        self.assertEqual("t:2:3: error: no lexical item begins with '#' (X.680, 11.1)", self.refused("a\n  #"))

    def test_a_block_comment_without_an_end(self):
        self.assertEqual("t:1:3: error: `/*` isn't closed by `*/` (X.680, 12.6.4)", self.refused("a /* /* */"))

    def deviation(self, text):
        problems = Problems()
        scan(text, "t", problems)
        return [str(it) for it in problems.found]

    def test_a_needless_zero(self):
        self.assertEqual(["t:1:1: warning: a number has digits alone, and none is a needless 0: `0x10` (X.680, 12.8)"], self.deviation("0x10"))
        self.assertEqual(["t:1:1: warning: a number has digits alone, and none is a needless 0: `007` (X.680, 12.8)"], self.deviation("007"))
        self.assertEqual([], self.deviation("0"))

    def test_a_name_with_an_underscore(self):
        self.assertEqual(["t:1:1: warning: a name has letters, digits and hyphens: `a_b` (X.680, 12.2.1)"], self.deviation("a_b"))

    def test_a_strict_run_refuses_what_is_accepted_else(self):
        problems = Problems(strict=True)
        scan("a_b", "t", problems)
        self.assertEqual("t:1:1: error: a name has letters, digits and hyphens: `a_b` (X.680, 12.2.1)", str(problems.found[0]))
