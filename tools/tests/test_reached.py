"""Which functions are reached."""
import unittest

from . import script

reached = script("reached")


class Reached(unittest.TestCase):
    def found(self, library: str, *others: str) -> list[str]:
        """The names of the functions of a library that are reached from it and from other files."""
        files = [("lib", "src/lib.rt", library), *(("other", f"src/{at}.rt", text) for at, text in enumerate(others))]
        repository = reached.Repository(files)
        seen = repository.reached()
        return [it.name for it in repository.functions if it in seen and it.crate == "lib"]

    def test_from_main(self) -> None:
        self.assertEqual(["one", "two"], self.found("pub fn one() { two() } pub fn two() {;} pub fn three() {;}", "fn main() { one(); }"))

    def test_from_a_test(self) -> None:
        self.assertEqual(["one"], self.found("pub fn one() {;} pub fn two() {;}", "#[test]\nfn calls_one() { lib::one() }"))

    def test_not_from_a_main_in_an_impl(self) -> None:
        self.assertEqual([], self.found("pub fn one() {;}", "impl It { fn main() { one() } }"))

    def test_not_from_what_is_not_reached(self) -> None:
        self.assertEqual([], self.found("pub fn one() {;}", "fn other() { one() }"))

    def test_not_from_comments_and_strings(self) -> None:
        self.assertEqual([], self.found("pub fn one() {;}", 'fn main() { /* one() */ let s = "one()"; }'))

    def test_a_method_of_any_type(self) -> None:
        library = "pub struct A(u8); impl A { pub fn it(&self) {;} pub fn new() {;} } pub struct B(u8); impl B { pub fn it(&mut self) {;} }"
        self.assertEqual(["it", "it"], self.found(library, "fn main() { x.it(); }"))

    def test_a_function_of_one_type(self) -> None:
        library = "pub struct A(u8);\nimpl A { pub fn new() {;} }\npub struct B(u8);\nimpl B { pub fn new() {;} }\npub type C = B;\n"
        for path, at in (("A::new", 0), ("B::<u8>::new", 1), ("C::new", 1)):
            files = [("lib", "src/lib.rt", library), ("other", "src/main.rt", f"fn main() {{ {path}(); }}")]
            repository = reached.Repository(files)
            self.assertEqual([at == 0, at == 1], [it in repository.reached() for it in repository.functions[:2]], path)

    def test_a_function_that_is_passed(self) -> None:
        self.assertEqual(["one"], self.found("pub fn one() {;}", "fn main() { each(xs, one) }"))

    def test_own_traits_and_those_from_elsewhere(self) -> None:
        library = "pub trait Own { fn own(&self); }\nimpl Own for A { fn own(&self) {;} }\nimpl Drop for A { fn drop(&mut self) {;} }\n"
        self.assertEqual(["drop"], self.found(library))
        self.assertEqual(["own", "own", "drop"], self.found(library, "fn main() { a.own() }"))

    def test_what_is_public_and_what_is_a_law(self) -> None:
        text = "pub fn a() {;}\npub(crate) fn b() {;}\nfn c() {;}\npub const fn d() ensures e { f } {}\n"
        found = reached.Repository([("lib", "src/lib.rt", text)]).functions
        self.assertEqual([True, False, False, True], [it.is_public for it in found])
        self.assertEqual([False, False, False, True], [it.is_law for it in found])

    def test_how_a_function_is_shown(self) -> None:
        found = reached.Repository([("lib", "src/a.rt", "impl<'a> Own for It<'a> { fn own(&self) {;} } fn free() {;}")]).functions
        self.assertEqual(["lib/src/a.rt: It::own", "lib/src/a.rt: free"], [it.shown() for it in found])
