"""Each construct of the language that the definitions use, and that what is outside of it is refused by file and line."""

import contextlib
import io
import pathlib
import sys
import tempfile
import unittest

TOP = pathlib.Path(__file__).resolve().parents[2]
sys.dont_write_bytecode = True
sys.path.insert(0, str(TOP / "tools"))

from definition import Refused  # noqa: E402
from definition.library import Library  # noqa: E402
from definition.program import Program  # noqa: E402
from definition.tracing import shown  # noqa: E402

PRELUDE = ("use Rattle.std.specs.Prelude.{ℕ, zero, suc, ◌+◌, ◌-◌, ◌*◌, ◌/◌, ◌%◌, ◌^◌, min, max, Bool, true, false, ◌&&◌, ◌||◌, not, "
           "◌==◌, nat_lt, nat_le, List, [], ◌∷◌, ◌++◌, map, length, Option, Some, None, option_and_then, if◌then◌else◌, codes, cond}\n")
CODE = """
/// Shapes.
#[derive(Clone, Copy, PartialEq)]
pub enum Shape {
    Dot,
    Line(u32, Vec<(u8, u8)>),
    Box { wide: u32 },
}
"""


class Repository:
    """A repository of one crate `c`, with a module `M` of definitions."""

    def __init__(self, text, prelude=PRELUDE, code=CODE):
        self.folder = tempfile.TemporaryDirectory(prefix="constructs-")
        crate = pathlib.Path(self.folder.name, "crates/c")
        (crate / "specs").mkdir(parents=True)
        (crate / "src").mkdir()
        (crate / "specs/M.antt").write_text(prelude + text, encoding="utf-8")
        (crate / "src/shapes.rt").write_text(code, encoding="utf-8")

    def __enter__(self):
        return self

    def __exit__(self, *_):
        self.folder.cleanup()

    def program(self, name="it", plain=False, **options):
        library = Library(self.folder.name, plain=plain)
        return Program(library, {name: library.module("Rattle.c.specs.M").definitions[name]}, **options)


def value(text, **options):
    """What `it` comes to in a module with this text, in both ways."""
    with Repository(text) as repository:
        told = shown(repository.program(**options).it)
        assert told == shown(repository.program(plain=True).it), "with the words by hand and without them"
    return told


class Constructs(unittest.TestCase):
    def same(self, text, wanted):
        self.assertEqual(value(text), wanted)

    def test_whole_numbers(self):
        self.same("pub it : List ℕ\nit = (3 - 5) ∷ (7 / 2) ∷ (7 / 0) ∷ (7 % 2) ∷ (7 % 0) ∷ (2 ^ 10) ∷ 0x1F ∷ 1_000 ∷ min 3 4 ∷ max 3 4 ∷ []",
                  "[0, 3, 0, 1, 7, 1024, 31, 1000, 3, 4]")

    def test_numbers_by_zero_and_suc(self):
        self.same("pub down : ℕ → List ℕ\ndown zero = []\ndown (suc n) = n ∷ down n\npub it : List ℕ\nit = down 3", "[2, 1, 0]")

    def test_truth_values(self):
        self.same("pub it : List Bool\nit = (true && false) ∷ (true || false) ∷ not true ∷ (2 == 2) ∷ nat_lt 2 2 ∷ nat_le 2 2 ∷ []",
                  "[false, true, false, true, false, true]")

    def test_nested_patterns_and_a_catch_all(self):
        text = ("pub pairs : List ℕ → Option ℕ → ℕ\npairs (x ∷ y ∷ rest) (Some (suc z)) = x * 100 + y * 10 + z\npairs (x ∷ []) other = x\n"
                "pairs xs _ = 7\n")
        self.same(text + "pub it : List ℕ\nit = pairs (1 ∷ 2 ∷ 3 ∷ []) (Some 4) ∷ pairs (5 ∷ []) None ∷ pairs (1 ∷ 2 ∷ []) (Some 0) ∷ []", "[123, 5, 7]")

    def test_the_first_clause_that_fits(self):
        self.same("pub f : Bool → Bool → ℕ\nf true x = 1\nf x true = 2\nf false false = 3\n"
                  "pub it : List ℕ\nit = f true true ∷ f false true ∷ f false false ∷ []", "[1, 2, 3]")

    def test_records(self):
        text = "pub record P : Type 0 where\n  pub left : ℕ\n  pub right : List ℕ\npub p : P\np = record { left = 1; right = 2 ∷ [] }\n"
        self.same(text + "pub it : ℕ × P\nit = ((record p { left = 5 }).left, record p { right = p.left ∷ p.right })", "(5, {left = 1; right = [1, 2]})")

    def test_tuples(self):
        self.same("pub swap : ℕ × ℕ → ℕ × ℕ\nswap (a, b) = (b, a)\npub it : ℕ\nit = (swap (3, 4)).0 * 10 + (swap (3, 4)).1", "43")

    def test_a_tuple_behind_a_comma_too_many(self):
        self.same("pub it : ℕ × ℕ\nit = (\n  1,\n  2,\n)", "(1, 2)")

    def test_lambdas(self):
        self.same("pub twice : (ℕ → ℕ) → ℕ → ℕ\ntwice f x = f (f x)\npub it : List ℕ\n"
                  "it = twice (λ n. n * 3) 2 ∷ (λ (a b : ℕ). a - b) 9 4 ∷ (λ a b. a) 1 2 ∷ []", "[18, 5, 1]")

    def test_if_within_if(self):
        self.same("pub f : ℕ → ℕ\nf n = if nat_lt n 3 then if n == 0 then 10 else 20 else if n == 3 then 30 else 40\n"
                  "pub it : List ℕ\nit = map f (0 ∷ 1 ∷ 3 ∷ 4 ∷ [])", "[10, 20, 30, 40]")

    def test_let(self):
        self.same("pub it : ℕ\nit = let a = 3 in let b : ℕ = a * a in let (c, d) = (b, a) in c - d", "6")

    def test_operators_of_a_module(self):
        text = ("infixr 20 ◌then◌\ninfixl 60 ◌minus◌\npub ◌minus◌ : ℕ → ℕ → ℕ\na minus b = a - b\n"
                "pub ◌then◌ : ℕ → List ℕ → List ℕ\na then rest = a ∷ rest\n")
        self.same(text + "pub it : List ℕ\nit = 9 minus 3 minus 2 then 1 + 1 * 2 then []", "[4, 3]")

    def test_operators_as_functions(self):
        self.same("pub fold : (ℕ → ℕ → ℕ) → ℕ → List ℕ → ℕ\nfold f a [] = a\nfold f a (x ∷ xs) = f x (fold f a xs)\n"
                  "pub it : ℕ\nit = fold ◌+◌ 0 (1 ∷ 2 ∷ 3 ∷ [])", "6")

    def test_functions_without_all_arguments(self):
        self.same("pub add : ℕ → ℕ → ℕ → ℕ\nadd a b c = a + 10 * b + 100 * c\npub two : ℕ → ℕ\ntwo = add 1 2\n"
                  "pub it : List ℕ\nit = two 3 ∷ map (add 4 5) (6 ∷ []) ++ map two (7 ∷ [])", "[321, 654, 721]")

    def test_more_arguments_than_a_clause_names(self):
        self.same("pub choose : Bool → ℕ → ℕ → ℕ\nchoose true = λ a b. a\nchoose false = λ a b. b\npub it : ℕ\nit = choose false 1 2", "2")

    def test_constructors_as_functions(self):
        self.same("pub it : List (Option ℕ)\nit = map Some (1 ∷ map suc (1 ∷ []))", "[Some 1, Some 2]")

    def test_data_of_a_module(self):
        text = ("pub data Tree : Type 0 where\n  leaf : Tree\n  node : Tree → (n : ℕ) → {m : ℕ} → Tree → Tree\n"
                "pub sum : Tree → ℕ\nsum leaf = 0\nsum (node l n r) = sum l + n + sum r\n")
        self.same(text + "pub it : ℕ\nit = sum (node (node leaf 1 leaf) 2 leaf)", "3")

    def test_a_constructor_that_is_declared_further_down(self):
        self.same("pub f : ℕ → ℕ\nf value = value + 1\npub data D : Type 0 where\n  value : D\npub it : ℕ\nit = f 2", "3")

    def test_variants_of_the_code(self):
        text = ("use Rattle.c.specs.declared.shapes.Shape.{Shape}\nuse Rattle.c.specs.declared.shapes.Shape.TheVariants as shape\n"
                "pub size : Shape → ℕ\nsize shape.Dot = 0\nsize (shape.Line a rest) = a\nsize (shape.Box w) = w\n")
        self.same(text + "pub it : List ℕ\nit = size shape.Dot ∷ size (shape.Line 3 []) ∷ size (Shape.Box 4) ∷ []", "[0, 3, 4]")

    def test_equality_that_the_code_derives(self):
        text = ("use Rattle.c.specs.declared.shapes.Shape.TheVariants.{Dot, Box}\n"
                "use Rattle.c.specs.contracts.shapes.ShapePartialEq.TheImpl as equal\n")
        self.same(text + "pub it : List Bool\nit = (equal.ghosts).eq Dot Dot ∷ (equal.ghosts).eq (Box 1) (Box 2) ∷ []", "[true, false]")

    def test_names_behind_modules(self):
        self.same("use Rattle.core.specs.List as list\nuse Rattle.core.specs.Fmt\npub it : List ℕ\n"
                  "it = list.filter (λ n. nat_lt n 3) (1 ∷ 5 ∷ 2 ∷ []) ++ Fmt.decimal 7", "[1, 2, 55]")

    def test_text_literals(self):
        self.same('pub it : List ℕ\nit = codes "a\\n\\x41\\u{e9}"', "[97, 10, 65, 195, 169]")

    def test_escaped_names(self):
        self.same("pub f : ℕ → ℕ\nf «in» = «in» + 1\npub it : ℕ\nit = f 1", "2")

    def test_implicit_arguments(self):
        self.same("pub same : {A : Type 0} → A → A\nsame {A} x = x\npub it : ℕ\nit = same {A = ℕ} 4", "4")

    def test_sections(self):
        text = "module _ (base : ℕ) {A : Type 0} where\n  pub add : ℕ → ℕ\n  add n = base + n\n  pub twice : ℕ → ℕ\n  twice n = add (add n)\n"
        self.same(text + "pub it : ℕ\nit = twice 10 1", "21")

    def test_sections_within_sections(self):
        text = "module _ {A : Type 0} where\n  module _ (one : ℕ) where\n    pub add : ℕ → ℕ\n    add n = one + n\n"
        self.same(text + "pub it : ℕ\nit = add 2 3", "5")

    def test_definitions_that_use_each_other(self):
        text = "mutual\n  pub even : ℕ → Bool\n  even zero = true\n  even (suc n) = odd n\n  pub odd : ℕ → Bool\n  odd zero = false\n  odd (suc n) = even n\n"
        self.same(text + "pub it : Bool\nit = even 10", "true")

    def test_do(self):
        text = ("infixl 10 ◌>>=◌\npub ◌>>=◌ : Option ℕ → (ℕ → Option ℕ) → Option ℕ\nx >>= f = option_and_then f x\n"
                "pub half : ℕ → Option ℕ\nhalf n = if n % 2 == 0 then Some (n / 2) else None\n"
                "pub quarter : ℕ → Option ℕ\nquarter n = do\n  h ← half n\n  let more : ℕ = h + 0\n  half more\n")
        self.same(text + "pub it : Option ℕ × Option ℕ\nit = (quarter 12, quarter 10)", "(Some 3, None)")

    def test_a_definition_over_several_lines(self):
        self.same("pub it : List ℕ\nit =\n    1 ∷\n    (2 + -- a comment\n     3) ∷ []", "[1, 5]")

    def test_a_record_over_several_lines(self):
        self.same("pub record P : Type 0 where\n  pub a : ℕ\npub it : P\nit = record {\n  a = 1;\n}", "{a = 1}")


class Waiting(unittest.TestCase):
    """What isn't needed isn't computed."""

    LOOP = "pub loop : ℕ → ℕ\nloop n = loop (suc n)\n"

    def test_arguments(self):
        self.assertEqual(value(self.LOOP + "pub first : ℕ → ℕ → ℕ\nfirst a b = a\npub it : ℕ\nit = first 1 (loop 0)"), "1")

    def test_branches(self):
        self.assertEqual(value(self.LOOP + "pub it : ℕ\nit = if 1 == 1 then 2 else loop 0"), "2")
        self.assertEqual(value(self.LOOP + "pub it : ℕ\nit = cond false (loop 0) 3"), "3")

    def test_truth_values(self):
        self.assertEqual(value(self.LOOP + "pub it : Bool\nit = (false && (loop 0 == 1)) || (true || (loop 0 == 1))"), "true")

    def test_fields_and_items(self):
        self.assertEqual(value(self.LOOP + "pub it : ℕ × ℕ\nit = let p = (1, loop 0) in (p.0, length (loop 1 ∷ []))"), "(1, 1)")

    def test_fuel(self):
        text = "pub steps : ℕ → ℕ → ℕ\nsteps zero n = n\nsteps (suc fuel) n = if nat_lt 5 n then n else steps fuel (n + 1)\n"
        self.assertEqual(value(text + "pub it : ℕ\nit = steps (10 ^ 30) 0"), "6")

    def test_long_lists(self):
        text = "pub down : ℕ → List ℕ\ndown zero = []\ndown (suc n) = n ∷ down n\npub sum : List ℕ → ℕ\nsum [] = 0\nsum (x ∷ xs) = x + sum xs\n"
        self.assertEqual(value(text + "pub it : ℕ\nit = sum (map suc (down 20000))"), "200010000")

    def test_which_arguments_are_computed_first(self):
        text = ("pub f : ℕ → ℕ → ℕ → ℕ\nf zero b c = b\nf (suc a) b c = if b == 0 then c else b\n"
                "pub it : ℕ\nit = f 1 2 3")
        with Repository(text) as repository:
            self.assertEqual(repository.program("f").strictness.strict["Rattle.c.specs.M.f"], {0, 1})


class Outside(unittest.TestCase):
    """What can't be computed is refused, by file and line."""

    def refused(self, text, line, why):
        with Repository(text) as repository, self.assertRaises(Refused) as told:
            repository.program()
        self.assertIn(f"crates/c/specs/M.antt:{line + 1}: ", str(told.exception))
        self.assertIn(why, str(told.exception))

    def test_elim(self):
        self.refused("pub it : ℕ\nit = elim 1 as (λ n. ℕ) [ zero ↦ 0 ]", 2, "`elim` can't be computed")

    def test_types(self):
        self.refused("pub it : Type 0\nit = ℕ", 2, "`ℕ` is a type here")
        self.refused("pub it : Type 0\nit = (n : ℕ) → ℕ", 2, "`)` is wanted here")
        self.refused("pub A : Type 0\nA = Bool\npub it : Type 0\nit = A → A", 4, "a type can't be computed")

    def test_names_that_are_not_there(self):
        self.refused("pub it : ℕ\nit =\n  other 1", 3, "it: `other` is no name that is known here")
        self.refused("use Rattle.core.specs.List as list\npub it : ℕ\nit = list.nothing 1", 3, "there is no `list.nothing`")

    def test_numbers_in_patterns(self):
        self.refused("pub f : ℕ → ℕ\nf 1 = 2\npub it : ℕ\nit = f 1", 2, "a number isn't understood in a pattern")

    def test_records_in_patterns(self):
        self.refused("pub it : ℕ\nit = (λ record { a = b }. 1) 2", 2, "a record in a pattern isn't understood")

    def test_definitions_without_clauses(self):
        self.refused("pub given : ℕ\npub it : ℕ\nit = given", 1, "given: it has no clauses")

    def test_clauses_of_different_lengths(self):
        self.refused("pub f : ℕ → ℕ\nf zero = 1\nf = suc\npub it : ℕ\nit = f 1", 1, "different numbers of arguments")

    def test_constructors_without_their_arguments(self):
        self.refused("pub f : Option ℕ → ℕ\nf Some = 2\npub it : ℕ\nit = f None", 2, "`Some` takes 1 arguments")

    def test_an_unfinished_term(self):
        self.refused("pub it : ℕ\nit = (1 + 2", 2, "`)` is wanted here")
        self.refused("pub it : ℕ\nit = 1 then 2", 2, "`then` isn't understood here")


class Programs(unittest.TestCase):
    TEXT = ("pub sign : ℕ → List ℕ\nsign zero = []\nsign (suc n) = if nat_lt n 3 then 4 ∷ [] else codes \"large numbers\"\n"
            "pub it : List ℕ\nit = sign 2\n")

    def test_the_same_words_by_std(self):
        text = ("use Rattle.std.specs.List.{list_any}\n"
                "pub it : List Bool\nit = list_any (nat_lt 2) (1 ∷ 3 ∷ []) ∷ []\n")
        with Repository(text) as repository:
            program = repository.program()
            self.assertEqual(shown(program.it), "[true]")
            self.assertEqual([path for path in program.clauses if "list_any" in path], [])

    def test_order_of_lists(self):
        text = ("use Rattle.std.specs.Cmp.Lexicographic.{slice_cmp}\nuse Rattle.core.specs.Ordering.{nat_cmp, is_lt}\n"
                "pub less : List ℕ → List ℕ → Bool\nless a b = is_lt (slice_cmp nat_cmp a b)\npub it : List Bool\n"
                "it = less (1 ∷ 3 ∷ []) (2 ∷ []) ∷ less (2 ∷ []) (2 ∷ 0 ∷ []) ∷ less (2 ∷ []) (2 ∷ []) ∷ less (3 ∷ []) [] ∷ []")
        self.assertEqual(value(text), "[true, true, false, false]")

    def test_lengths_of_long_lists(self):
        text = ("pub down : ℕ → List ℕ\ndown zero = []\ndown (suc n) = n ∷ down n\n"
                "pub total : List ℕ → ℕ\ntotal [] = 0\ntotal (x ∷ xs) = length (x ∷ xs) + total xs\n"
                "pub it : ℕ\nit = total (down 50)")
        self.assertEqual(value(text), str(sum(range(51))))

    def test_what_is_reached(self):
        with Repository(self.TEXT) as repository:
            program = repository.program(marks=True)
        shown(program.it)
        places = {(place.path.rpartition(".")[2], place.clause, place.kind, place.line - 1) for at, place in enumerate(program.places) if at in program.marks}
        self.assertEqual(places, {("sign", 1, "clause", 3), ("sign", 1, "then", 3), ("it", 0, "clause", 5)})
        self.assertEqual(len(program.places), 5)

    def test_what_is_bent(self):
        found = set()
        for at in range(4):
            with Repository(self.TEXT) as repository:
                program = repository.program(bends=True)
            program.bent[0] = at
            found.add((program.places[at].kind, shown(program.it)))
        self.assertEqual(found, {("test", '"large numbers"'), ("number 3", "[4]"), ("number 4", "[5]"), ("number 2", "[4]")})

    def test_which_bends_are_reached(self):
        with Repository(self.TEXT.replace("it = sign 2", "it = sign 5")) as repository:
            program = repository.program(marks=True, bends=True)
        self.assertEqual(shown(program.it), '"large numbers"')
        self.assertEqual({program.places[at].kind for at in program.marks}, {"test", "number 3", "number 5"})

    def test_what_is_traced(self):
        told, text = io.StringIO(), "pub f : ℕ → List ℕ → ℕ\nf n items = n\npub it : ℕ\nit = f 2 (f 3 [] ∷ [])"
        with Repository(text) as repository, contextlib.redirect_stderr(told):
            shown(repository.program(trace=("M.f",)).it)
        self.assertEqual(told.getvalue(), "f (M.antt:2)\n    n = 2\n    items = [_]\n    -> 2\n")


if __name__ == "__main__":
    unittest.main()
