"""The functions of a file, and the checker's names for them."""
import unittest

from shared import rattle_source as source

FILE = """\
//! A file with a brace in a comment: {
impl<T: Copy> Level<T> {
    /// Says "}".
    pub fn name(&self) -> &str
        ensures said { result ≡ "}" }
        ensures* { f { x } }
    {
        "{"
    }

    const fn len(&self) -> usize { if self.0 { 1 } else { 2 } }
}

trait Named: Sized {
    ghost shape: { Shape };

    fn name(&self) -> char
        ensures is { result ≡ 'a' };
}

pub mod level {
    pub fn numbers() {}
}

fn main() {}
"""


class Functions(unittest.TestCase):
    def test_each_has_its_block_and_name(self) -> None:
        found = [(block, name) for block, name, _, _ in source.functions(FILE)]
        self.assertEqual([("Level", "name"), ("Level", "len"), ("Named", "name"), ("level", "numbers"), ("", "main")], found)

    def test_a_body_begins_after_the_clauses(self) -> None:
        bodies = [FILE[body:end] for _, _, _, body, end in source.parts(FILE)[0]]
        self.assertEqual(['{\n        "{"\n    }', "{ if self.0 { 1 } else { 2 } }", ";", "{}", "{}"], bodies)

    def test_clauses(self) -> None:
        text = "fn f() ensures one { a { b } } ensures { ⟦<[T] as Clone>⟧ ⟦<Of<T, 1> as PartialEq>⟧ } {}"
        self.assertEqual([("one", " a { b } "), ("", " ⟦<[T] as Clone>⟧ ⟦<Of<T, 1> as PartialEq>⟧ ")], source.clauses(text))
        self.assertEqual({"SliceTClone", "OfPartialEq"}, source.named_blocks(text))

    def test_the_blocks_are_whole(self) -> None:
        blocks = [FILE[begin:end] for _, begin, end in source.parts(FILE)[1]]
        self.assertEqual(["impl<T: Copy> Level<T> {", "trait Named: Sized {", "mod level {"], [it.split("\n")[0] for it in blocks])
        self.assertEqual(["}", "}", "}"], [it.split("\n")[-1] for it in blocks])

    def test_what_is_no_code_is_blank(self) -> None:
        self.assertEqual("a     b c   \n e", source.blanked("a/*{*/b c//d\n e"))
        for text in ('"a{\\"}"', "// {", "/* {\n */", "b'{'", "'\\n'", 'b"{"'):
            self.assertEqual("", source.blanked(text).strip(), text)

    def test_a_lifetime_is_code(self) -> None:
        self.assertEqual("fn f<'a>(x: &'a str)", source.blanked("fn f<'a>(x: &'a str)"))


class Names(unittest.TestCase):
    def check(self, name: str, header: str) -> None:
        self.assertEqual(name, source.block_of(header))

    def test_own_methods(self) -> None:
        self.check("Level", "impl<T: Copy> Level<T>")

    def test_a_trait_for_a_type(self) -> None:
        self.check("BoolSerialize", "impl Serialize for bool")
        self.check("UnitSerializeMembers", "impl SerializeMembers for ()")
        self.check("Tuple3Struct", "impl<A, B, C> Struct for (A, B, C)")
        self.check("ArraySerialize", "impl<T: Serialize, const N: usize> Serialize for [T; N]")

    def test_a_reference(self) -> None:
        self.check("RefStrSerialize", "impl Serialize for &str")
        self.check("RefMutReadExt", "impl<R: ReadExt> ReadExt for &mut R")
        self.check("RefSliceU8ReadExt", "impl ReadExt for &[u8]")
        self.check("RefSliceSerialize", "impl<T: Serialize> Serialize for &'_ [T]")

    def test_a_reference_to_a_parameter_of_any_name(self) -> None:
        self.check("RefSerializeMembers", "impl<M: SerializeMembers> SerializeMembers for &M")

    def test_a_trait_for_a_parameter(self) -> None:
        self.check("AnySerializeMember", "impl<T: Serialize> SerializeMember for T where T: Sized")

    def test_arguments_of_a_trait(self) -> None:
        self.check("Asn1SetOfFromVec", "impl<T> From<Vec<T>> for Asn1SetOf<T>")
        self.check("LevelPartialEqU8", "impl PartialEq<u8> for Level")
        self.check("LevelFrom", "impl<T> From<T> for Level<T>")

    def test_a_trait(self) -> None:
        self.check("Named", "trait Named: Sized")

    def test_the_modules_to_a_file(self) -> None:
        self.assertEqual(["impls", "numbers"], source.module_of("src/impls/numbers.rt"))
        self.assertEqual([], source.module_of("src/lib.rt"))
