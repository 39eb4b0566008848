"""The proofs about an element of which several types are tried: that it is a value of none of them, where each was tried."""
from ..meaning.declarations import ListedDeclaration, UnionDeclaration
from .listed import home, list_name
from .union import ELEMENTS, TRIED

# the file of the lemmas, in the folder of the module that tries a type
_REASONS = "Reasons"
_ERRORS = "Rattle.picky_der_core.specs.declared.error.Asn1DerError"
_NO_MEMORY = "(InvalidData ≡ OutOfMemory) ⊎ (InvalidData ≡ InvalidData)"

_LEMMAS = f"""
-- Why an element is no value of a type.
use Rattle.std.proofs.Common.{{◌≡◌, refl, subst, sym, ap, ◌∙◌, ℕ, Bool, true, false, not, ◌||◌, nat_eq, List, [], ◌∷◌}}
use Rattle.std.proofs.Common.{{Option, Some, None, IfNone, ◌⊎◌, inl, inr}}
use Rattle.std.proofs.lemmas.Bool.{{eq-eqb, eqb-true}}
use Rattle.std.specs.List.{{list_any}}
use Rattle.std.specs.Prelude.{{slice_get}}
use Rattle.picky_der_core.specs.Shape.{{begins_outside}}
use {_ERRORS}.{{Asn1DerError}}
use {_ERRORS}.TheVariants.{{InvalidData, OutOfMemory}}

other : InvalidData ≡ OutOfMemory → ⊥
other e = cc

-- no allocation failed, and a copy means the same
pub for_another_reason : {{V T : Type 0}} {{m : V → T}} {{a b : T}} → a ≡ b → (e : Asn1DerError) → (e ≡ OutOfMemory → ⊥)
    → (e ≡ OutOfMemory) ⊎ (e ≡ InvalidData) × ((v : V) → m v ≡ a → ⊥)
    → {_NO_MEMORY} × ((v : V) → m v ≡ b → ⊥)
for_another_reason same e known (inl is) = absurd (known is)
for_another_reason same e known (inr h) = inr (refl, λ v x. h.1 v (x ∙ sym same))

-- what is known where nothing was found
pub where_none : {{A P : Type 0}} (found : Option A) → found ≡ None → IfNone found ({_NO_MEMORY} × P) → P
where_none {{P = P}} found e h = elim (subst (λ it. IfNone it Stated) e h) [
  | inl is ↦ absurd (other is)
  | inr known ↦ known.1
]
  where
    Stated : Type 0
    Stated = {_NO_MEMORY} × P

-- ---- a byte that isn't listed

agree : (x y : Bool) → (x ≡ true → y ≡ true) → (y ≡ true → x ≡ true) → x ≡ y
agree true y f g = sym (f refl)
agree false true f g = g refl
agree false false f g = refl

both_ways : (a b : ℕ) → nat_eq a b ≡ nat_eq b a
both_ways a b = agree (nat_eq a b) (nat_eq b a) (λ e. eq-eqb b a (sym (eqb-true a b e)))
    (λ e. eq-eqb a b (sym (eqb-true b a e)))

same_tests : (f g : ℕ → Bool) → ((x : ℕ) → f x ≡ g x) → (xs : List ℕ) → list_any f xs ≡ list_any g xs
same_tests f g e [] = refl
same_tests f g e (x ∷ xs) = ap (λ b. b || list_any f xs) (e x) ∙ ap (λ b. g x || b) (same_tests f g e xs)

nothing : (b : ℕ) → Some b ≡ None → ⊥
nothing b e = cc

-- an element begins otherwise exactly if its first byte isn't listed
pub begins_otherwise : (known bytes shown : List ℕ) (first : ℕ) (found : Bool) → shown ≡ bytes
    → Some first ≡ slice_get shown 0 → found ≡ list_any (λ it. nat_eq it first) known
    → not found ≡ begins_outside known bytes
begins_otherwise known bytes [] first found same there listed = absurd (nothing first there)
begins_otherwise known bytes (x ∷ xs) first found same there listed =
    let is : first ≡ x = cc in
    subst (λ s. not found ≡ begins_outside known s) same
    (ap not (listed ∙ (same_tests (λ it. nat_eq it first) (λ it. nat_eq first it) (λ it. both_ways it first) known
    ∙ ap (λ b. list_any (λ it. nat_eq b it) known) is)))
"""


def shared_proofs(crate: str) -> dict[str, list[str]]:
    """The lines of the proofs that all types share which are tried, after the first line of each file, by its path."""
    folder = f"proofs/{ELEMENTS}"
    return {
        f"{folder}.antt": [f"pub mod {_REASONS}"],
        f"{folder}/{_REASONS}.antt": _LEMMAS.strip("\n").split("\n"),
        f"{folder}/{TRIED}/Answers.antt": [
            "use Rattle.std.proofs.Common.{rules, ◌≡◌, ap}",
            "use Rattle.picky_der_core.specs.Tree.{Tree}",
            f"use Rattle.{crate}.proofs.{ELEMENTS}.{_REASONS}.{{for_another_reason}}",
            f"use Rattle.{crate}.proofs.{ELEMENTS}.{TRIED}.Goals as goal",
            "",
            "pub returns-in_default : goal.returns-in_default",
            "returns-in_default g c =",
            "    let same : c.in_ok-clone.field-0.0.items ≡ c.args.element.now.0.items = search rules in",
            "    record {",
            "      some = tt;",
            "      none = for_another_reason (ap Tree.raw same) c.in-Err.error c.in_default.not-OutOfMemory c.in-Err.ensures.err;",
            "      err = tt;",
            "    }",
        ],
    }


def tried_path(name: str, stem: str) -> str:
    """The path of the proof of `try_from_parts`. `stem` is the name of the file of the type."""
    return f"proofs/{stem}/{name}TryVia/try_from_parts/Answers.antt"


def tried_answers(declared: UnionDeclaration, crate: str, stem: str) -> list[str]:
    """The lines of the proof of `try_from_parts`: a value that has the element would be found by one of the calls, each of which found none.

    The prover names the first call as the function, and each other one by its number.
    """
    lines = [
        "use Rattle.std.proofs.Common.{refl, inr}",
        f"use Rattle.{crate}.specs.declared.{stem}.{declared.name}.TheVariants as variants",
        f"use Rattle.{crate}.proofs.{ELEMENTS}.{_REASONS}.{{where_none}}",
        f"use Rattle.{crate}.proofs.{stem}.{declared.name}TryVia.try_from_parts.Goals as goal",
        "",
        "pub returns-clause-err : goal.returns-clause-err",
        "returns-clause-err c = inr (",
        "  refl,",
        "  elim [",
    ]
    for index, it in enumerate(declared.variants):
        ok, rest = (f"c.{step}{f'-{index + 1}' if index else ''}" for step in ("in_ok-it", "in_default"))
        lines.append(f"    | variants.{it.name} x ↦ where_none {ok}.field-0 {rest}.is {ok}.ensures.none x")
    return [*lines, "  ],", ")"]


def later_path(declared: ListedDeclaration, stem: str) -> str:
    """The path of the proof of the test of a later alternative. `stem` is the name of the file of the type."""
    return f"proofs/{stem}/{declared.function}/Answers.antt"


def later_answers(declared: ListedDeclaration, crate: str, stem: str) -> list[str]:
    """The lines of that proof. The prover finds it by itself for some bytes, but not for those of twenty alternatives."""
    return [
        f"use {home(crate)}.{{{list_name(declared)}}}",
        f"use Rattle.{crate}.proofs.{ELEMENTS}.{_REASONS}.{{begins_otherwise}}",
        f"use Rattle.{crate}.proofs.{stem}.{declared.function}.Goals as goal",
        "",
        "pub returns-in-Some : goal.returns-in-Some",
        f"returns-in-Some c = begins_otherwise {list_name(declared)}",
        "    c.args.value.now.0.items c.deref.result.now c.in-Some.first.now c.contains.result c.deref.ensures.value",
        "    c.in-Some.ensures.value c.contains.ensures.value",
    ]
