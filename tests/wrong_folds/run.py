#!/usr/bin/env python3
"""Shows that a wrong definition stops the proof of demand 3, and not only the proof that the code does the same.

    python3 tests/wrong_folds/run.py > docs/WRONG_FOLDS.md

The crates under `meaning` are copied without their code: types, definitions and the laws that demand 3 stands on stay. In this copy no contract is left
that could refuse a definition, and each wrong definition below, if it is refused, is refused by a law that demand 3 stands on.
"""
import pathlib
import re
import shutil
import subprocess
import sys
import tempfile

ROOT = pathlib.Path(__file__).resolve().parents[2]

# what is wrong; crate; file of specs/; old text; new text
WRONG = [
    ("literal and keep not apart in the masked comparison", "bitfield", "Bitfield",
     "(eqb (bit_and v c.value) 0 && leb v (mask w))", "(leb v (mask w))"),
    ("the base of a masked comparison not compared", "bitfield", "Bitfield",
     "(eqb c.base base && (", "((eqb c.base base || true) && ("),
    ("bits of `high` taken above the concat's width", "bitfield", "Bitfield",
     "field_from g high low v 0 w no_bits", "field_from g high low v 0 128 no_bits"),
    ("a bit inverted by an Xor passed on as it is", "bitfield", "Bitfield",
     "(cond set (flipped p i) (from p i))", "(cond set (from p i) (from p i))"),
    ("Or and And swapped in a bit", "bitfield", "Bitfield",
     "(cond (same_binary o bi.Or) (cond set (here (known true)) (from p i))", "(cond (same_binary o bi.Or) (cond set (from p i) (here (known true)))"),
    ("an offset with the sign turned", "plan_binary", "Binary",
     "(Some (u128.wrapping_add target offset))", "(Some (u128.wrapping_sub target offset))"),
    ("a remainder by a power of two that keeps one bit too many", "plan_binary", "Binary",
     "(plan.constant_binary t (b - 1) t bi.And left)", "(plan.constant_binary t b t bi.And left)"),
    ("a shift of a shift by the wrong sum", "plan_binary", "Binary",
     "(plan.constant_binary ty.Integer (c.value + count) (ty.Bits w) o c.base)", "(plan.constant_binary ty.Integer count (ty.Bits w) o c.base)"),
    ("Sub of Sub by the difference of the constants", "plan_binary", "Binary",
     "(sub_of_sub t c.base (binary_value bi.Add t c.value b))", "(sub_of_sub t c.base (binary_value bi.Sub t c.value b))"),
    ("Sub of a node and itself is the node", "fold", "Operator",
     "kept_twice = bi.And ∷", "kept_twice = bi.Sub ∷ bi.And ∷"),
    ("comparison by ranges with ≤ for <", "fold", "Range",
     "less_ranges a b = cond (lt_z a.high b.low) (Some true)", "less_ranges a b = cond (le_z a.high b.low) (Some true)"),
    ("unsigned comparison by signed ranges that may be negative", "fold", "Range",
     "(provided (unsigned_too a b) (less_ranges a b))", "(less_ranges a b)"),
    ("truncation pushed through a division", "fold", "Operator",
     "modular_ops = bi.Add ∷", "modular_ops = bi.DivideUnsigned ∷ bi.Add ∷"),
    ("operands of Sub change places", "fold", "Operator",
     "commutative = bi.Add ∷", "commutative = bi.Sub ∷ bi.Add ∷"),
    ("a sign extension dropped at 2^(w−1)", "plan", "OneOperand",
     "fits (w - 1) r", "fits w r"),
    ("an identity to Integer of a negative range", "plan", "OneOperand",
     "cond (not_negative r) (plan.add ty.Integer r (node.refine v)) plan.stop", "plan.add ty.Integer r (node.refine v)"),
    ("a narrower reduction passed over", "fold", "Shape",
     "is_wide (ty.Bits v) w = leb w v", "is_wide (ty.Bits v) w = true"),
    ("a slice of the concat's high part not moved down", "plan_slice", "Slice",
     "(plan.slice high (o - v) w)", "(plan.slice high o w)"),
    ("two slices joined that are not side by side", "plan_slice", "Slice",
     "eqb a.offset (b.offset + v)", "leb (b.offset + v) a.offset"),
    ("a product's range without one corner", "range", "Interval",
     "(fitted (a.low *ℤ b.high)) (fitted (a.high *ℤ b.low))", "(fitted (a.low *ℤ b.high)) (fitted (a.low *ℤ b.high))"),
    ("a remainder's range without 0", "range", "Interval",
     "low = min_z (max_z a.low (pos 1 -ℤ m)) (pos 0);", "low = max_z a.low (pos 1 -ℤ m);"),
    ("a constant's range for 2^127", "graph", "Insert",
     "constant_interval (ty.Bits w) v = cond (is_neg (signed 128 v)) None (Some (point (signed 128 v)))", "constant_interval (ty.Bits w) v = Some (point (signed 128 v))"),
    ("interning that passes over the lowest equal node", "graph", "Insert",
     "found_or g (Some n) m = made (id (resolve g n)) g", "found_or g (Some n) m = m"),
    ("an answer that is not resolved, and may be of another node", "graph", "Insert",
     "found_or g (Some n) m = made (id (resolve g n)) g", "found_or g (Some n) m = made (id (n + 1)) g"),
    ("an answer that is not resolved", "graph", "Insert",
     "found_or g (Some n) m = made (id (resolve g n)) g", "found_or g (Some n) m = made (id n) g"),
    ("a count raised by a refusal", "graph", "Insert",
     "    (made room g)", "    (made room (set g 0 (count_of g + 1)))"),
    ("words past the last node that may be anything", "graph", "WellFormed",
     "are_zeros (drop (node_start (count_of g)) g)", "are_zeros (drop (node_start LIMIT) g)"),
    ("an operand that is not renumbered by retain", "retain", "Retain",
     "has_second code = eqb code CONCAT || ", "has_second code = eqb code CONCAT && "),
    ("a retained line that keeps its old id", "meaning", "Book",
     "(record { id = renumbered keep l.id; val = l.val }", "(record { id = l.id; val = l.val }"),
    ("a declaration whose condition is not noted", "meaning", "Book",
     "(record { id = n; val = v } ∷ []); conditions = cs ++ b.conditions", "(record { id = n; val = v } ∷ []); conditions = b.conditions"),
    ("an effect whose type is not noted", "meaning", "Book",
     "request_conditions look (asks.effect i t) = effect_is i t ∷ []", "request_conditions look (asks.effect i t) = []"),
    ("a second operand's id that is not asked", "request", "Request",
     "ids (binary t o l r) = l ∷ r ∷ []", "ids (binary t o l r) = l ∷ []"),
    ("a parameter's width that is not asked", "request", "Request",
     "widths (unary t o v) = type_width t ∷ unary_width o ∷ []", "widths (unary t o v) = type_width t ∷ []"),
    ("a guard on a condition that is no Bool", "request", "Request",
     "typed g (guard n e) = same_type (type_at g n) ty.Bool", "typed g (guard n e) = true"),
    ("codes that name nothing, taken for typed", "request", "Request",
     "typed g (unnamed ws is) = false", "typed g (unnamed ws is) = true"),
    ("a Bool constant of 2", "request", "Request",
     "is_bool_value ty.Bool v = ltb v 2", "is_bool_value ty.Bool v = ltb v 3"),
    ("an input's range outside its type", "request", "Request",
     "le_z a.low a.high && inside_type t a", "le_z a.low a.high && inside_type ty.Integer a"),
    ("a guard whose condition is not noted", "meaning", "Book",
     "record { lines = b.lines; conditions = cs ++ b.conditions }", "record { lines = b.lines; conditions = b.conditions }"),
    ("a dropped node that maps to 0", "retain", "Retain",
     "DROPPED = 2 ^ 64 - 1", "DROPPED = 0"),
    ("Concat's parts swapped in what it means", "meaning", "Value",
     "valued t (concat_value v x y)", "valued t (concat_value v y x)"),
    ("Slice's offset left out of what it means", "meaning", "Value",
     "valued t (bits_from o v)", "valued t v"),
    ("Integer read unsigned where a range is compared", "meaning", "Value",
     "integer_of ty.Integer v = signed 128 v", "integer_of ty.Integer v = pos v"),
    ("unsigned orders by ranges that may be negative", "assume", "Limits",
     "|| unsigned_too a b", "|| unsigned_too a a"),
    ("not less: one more than the least", "assume", "Limits",
     "not_less_limits a b = pair (limits (Some b.low) None)", "not_less_limits a b = pair (limits (one_more b.low) None)"),
    ("at most: one less than the largest", "assume", "Limits",
     "less_equal_limits a b = pair (limits None (Some b.high))", "less_equal_limits a b = pair (limits None (one_less b.high))"),
    ("apart from a range of more than one value", "assume", "Limits",
     "    cond (eq_z b.low b.high)\n", "    cond (eq_z b.low b.high || eq_z a.low b.low)\n"),
    ("apart from a point: narrowed at the wrong end", "assume", "Limits",
     "(provided (eq_z a.high b.high) (one_less a.high))", "(provided (eq_z a.low b.high) (one_less a.high))"),
    ("NotEqual taken for Equal", "assume", "Limits",
     "(cond (same_binary o bi.NotEqual) (cond e (apart_limits a b) (equal_limits a b))", "(cond (same_binary o bi.NotEqual) (cond e (equal_limits a b) (apart_limits a b))"),
    ("a meet that is empty", "assume", "Limits",
     "(le_z met.low met.high && not (same_type t ty.Bool))", "(not (same_type t ty.Bool))"),
    ("the larger of two upper ends", "assume", "Limits",
     "high = min_z a.high (or_end l.upper a.high)", "high = max_z a.high (or_end l.upper a.high)"),
    ("the base of a sum with the offset's sign turned", "assume", "Refine",
     "undone_bits w o c z = cond (same_binary o bi.Sub)", "undone_bits w o c z = cond (same_binary o bi.Add)"),
    ("narrowing through a sum whose shifted interval wraps", "assume", "Refine",
     "ordered a b = only (leb a b) (record", "ordered a b = only (leb 0 b) (record"),
    ("the base of a product refined", "fold", "Operator",
     "sums = bi.Add ∷ bi.Sub ∷ []", "sums = bi.Add ∷ bi.Sub ∷ bi.Mul ∷ []"),
    ("a base of another type refined", "assume", "Refine",
     "provided (same_type (type_at g c.base) t) (mapped", "provided (leb 0 c.base) (mapped"),
    ("limits of left and right swapped", "assume", "Assume",
     "then_refined (refined unchanged g a p.left).outcome (refined unchanged g a p.left).words b p.right", "then_refined (refined unchanged g a p.right).outcome (refined unchanged g a p.right).words b p.left"),
    ("the right node's range read after the left one is narrowed", "assume", "Assume",
     "then_refined narrowed h n l = refined narrowed h n l",
     "then_refined narrowed h n l = refined narrowed h n (given (range_at h (resolve h n)) (λ a. record { lower = Some a.low; upper = Some a.high }) l)"),
    ("a BoolNot that does not turn what is expected", "guard", "Condition",
     "behind g k i (not e))", "behind g k i e)"),
    ("an alias to another node than the Refine", "assume", "Refine",
     "alias_to n a (insert.id m) h = step narrowed (base_of (aliased h n m) n a) (aliased h n m)", "alias_to n a (insert.id m) h = step narrowed (base_of (aliased h n m) n a) (aliased h n n)"),
    ("records that are read after a bad one", "meaning", "Program",
     "next s r = cond s.is_over s (more", "next s r = cond false s (more"),
    ("a record's region that is not carried to the next", "meaning", "Program",
     "graph = e.graph; mapping = e.mapping }", "graph = s.graph; mapping = e.mapping }"),
    ("a line that is the answer on the graph after its call", "meaning", "Program",
     "lines_of ρ w before ++ line_of (play ρ w before).now.graph (play ρ w before).marks a", "lines_of ρ w before ++ line_of (play ρ w (a ∷ before)).now.graph (play ρ w before).marks a"),
    ("a return that leaves the aliases of old nodes", "mark", "Mark",
     "returned g m k = restored (count_at m k) (aliases_at m k) g", "returned g m k = restored (count_at m k) (saved g (aliases_at m k)) g"),
    ("a return that leaves the nodes added since", "mark", "Mark",
     "returned g m k = restored (count_at m k) (aliases_at m k) g", "returned g m k = restored (count_of g) (aliases_at m k) g"),
    ("a return that keeps later marks", "mark", "Mark",
     "(returning calls.done (returned g m k) (standing_only (k + 1) m))", "(returning calls.done (returned g m k) m)"),
    ("a return that drops its own mark", "mark", "Mark",
     "(returning calls.done (returned g m k) (standing_only (k + 1) m))", "(returning calls.done (returned g m k) (standing_only k m))"),
    ("a mark named by the number of nodes", "mark", "Mark",
     "(marking (number (standing m)) (marked g m (standing m)))", "(marking (number (count_of g)) (marked g m (standing m)))"),
    ("a mark over the first one", "mark", "Mark",
     "(marking (number (standing m)) (marked g m (standing m)))", "(marking (number (standing m)) (marked g m 0))"),
    ("a retain that leaves marks", "mark", "Mark",
     "unmarked (unmarking.kept n) m = standing_only 0 m", "unmarked (unmarking.kept n) m = m"),
    ("a mark with more nodes than the next", "mark", "WellFormed",
     "are_first limit m (suc k) = is_mark limit m k && are_first (count_at m k) m k", "are_first limit m (suc k) = is_mark limit m k && are_first limit m k"),
    ("a return that keeps the book's conditions", "meaning", "Book",
     "put_back calls.done k bs b = get_or bs k blank", "put_back calls.done k bs b = record { lines = (get_or bs k blank).lines; conditions = b.conditions }"),
    ("a return that keeps the book's lines", "meaning", "Book",
     "put_back calls.done k bs b = get_or bs k blank", "put_back calls.done k bs b = record { lines = b.lines; conditions = (get_or bs k blank).conditions }"),
    ("a book that forgets the mark returned to", "meaning", "Book",
     "forgets calls.done k bs = take (suc k) bs", "forgets calls.done k bs = take k bs"),
    ("a list of guards that goes on after a refusal", "guard_list", "GuardList",
     "cond (is_refused (request_in_graph g q).answer) (request_in_graph g q) (in_turn (request_in_graph g q).words qs)", "in_turn (request_in_graph g q).words qs"),
    ("each guard of a list on the first graph", "guard_list", "GuardList", "(in_turn (request_in_graph g q).words qs)", "(in_turn g qs)"),
    ("a refused list that keeps the guards before it", "guard_list", "GuardList",
     "no.Guards (finished g (in_turn g (guards_of cs es)))", "no.Guards (in_turn g (guards_of cs es))"),
    ("a list of 33 guards", "guard_list", "GuardList", "MOST = 32", "MOST = 33"),
    ("an answer of 2 in a list", "guard_list", "GuardList", "(λ e. leb e 1)", "(λ e. leb e 2)"),
]


def used(text):
    """The paths of types that the `use` lines bring, those of a group one by one."""
    paths = []
    for line in re.findall(r"^use ([\w:]+(?:\{[^{}]*\})?);", text, re.M):
        head, _, group = line.rstrip("}").partition("{")
        paths += [head + name.strip() for name in group.split(",") if name.strip()] if group else [head]
    return [path for path in paths if re.fullmatch(r"\w+(?:::\w+)*::[A-Z]\w*", path)]


def types_of(text):
    """The types of a source file with their derives, and the `use` lines that they need."""
    found = re.findall(r"(?:^(?://|#\[)[^\n]*\n)*^(?:pub(?:\(crate\))? )?(?:enum|struct) \w+\s*(?:\([^)]*\);|;|\{.*?^\})", text, re.M | re.S)
    # Comparisons are code: those of `Word` and `Signed` are not there to derive others from. A name before a parenthesis is a variant's.
    found = [re.sub(r", (?:PartialEq|Eq|PartialOrd|Ord)\b", "", it) for it in found]
    named = [path for path in used(text) if re.search(r"\b%s\b(?!\()" % path.rpartition("::")[2], "\n".join(found))]
    return "".join(f"use {path};\n" for path in named) + "\n" + "\n\n".join(found) + "\n" if found else ""


def without_code(source, target, laws):
    """src/ keeps its types alone, proofs/ the laws that are needed."""
    (target / "src").mkdir(parents=True)
    modules = ""
    for file in sorted((source / "src").glob("*.rt")):
        types = types_of(file.read_text())
        if types and file.name != "lib.rt":
            (target / "src" / file.name).write_text("// Types alone.\n" + types)
            modules += f"pub mod {file.stem};\n"
    (target / "src" / "lib.rt").write_text("// Types alone.\n#![tactic(auto)]\n\n" + modules + "\n" + types_of((source / "src" / "lib.rt").read_text()))
    if (source / "specs").exists():
        shutil.copytree(source / "specs", target / "specs")
    if laws:
        (target / "proofs").mkdir()
        (target / "proofs" / "Lib.antt").write_text("".join(f"pub mod {law}\n" for law in sorted(laws)))
        for law in laws:
            shutil.copy(source / "proofs" / (law + ".antt"), target / "proofs")


def needed_laws():
    """The files of proofs/ that demand 3, the program's theorem and those of returns stand on, by crate: a law that none cites would refuse for its own sake."""
    laws, todo = {}, [("meaning", "Demand3"), ("meaning", "Program"), ("meaning", "Returned"), ("meaning", "Books")]
    while todo:
        crate, law = todo.pop()
        file = ROOT / "crates" / crate / "proofs" / (law + ".antt")
        if law in laws.setdefault(crate, set()) or not file.exists():  # what the check makes of a type has no file
            continue
        laws[crate].add(law)
        text = file.read_text()
        todo += re.findall(r"^use Rattle\.(\w+)\.proofs\.([A-Z]\w*)", text, re.M)
    return laws


def copy(room):
    lines, laws = [], needed_laws()
    needed = ["bit_laws", "word", "answer", "text", "request", "record", "range", "evaluate", "graph", "fold", "bitfield", "plan", "plan_slice", "plan_binary", "guard", "assume", "build", "retain", "native", "guard_list", "mark", "meaning"]
    for line in (ROOT / "crates.txt").read_text().splitlines():
        name = line.partition(":")[0].strip()
        if name in needed:
            lines.append(line)
            without_code(ROOT / "crates" / name, room / "crates" / name, laws.get(name))
    (room / "crates.txt").write_text("\n".join(lines) + "\n")


def check(room):
    """None if all is proved, else the declarations that were refused, but for those that only cite one of them."""
    ran = subprocess.run(["rt", "all", "check"], cwd=room, capture_output=True, text=True)
    if ran.returncode == 0:
        return None
    found = []
    # What is said of a crate comes under its name, with paths from its folder. Declarations that cite a refused one are not checked: a line without a name at its head.
    for crate, said in re.findall(r"^== (\w+)\n(.*?)(?=^== |\Z)", ran.stdout, re.M | re.S):
        found += [(f"{crate}/{file}", name) for file, name in re.findall(r"^(?:\./)?([^\s:]+):\d+:\d+: error: `([^`]+)`: ", said, re.M)]
    return list(dict.fromkeys(found)) or [("?", (ran.stdout + ran.stderr)[-300:].replace("\n", " "))]


def main():
    room = pathlib.Path(tempfile.mkdtemp())
    copy(room)
    if (first := check(room)) is not None:
        sys.exit(f"the copy itself is not proved: {first}")
    print("# Wrong definitions, where the proofs of demand 3, of the program's theorem and of those of returns stop\n")
    print("Made by `python3 tests/wrong_folds/run.py`: in a copy of the crates without their code, where no contract can refuse a definition,")
    print("each wrong definition is put in alone. The declarations that the prover refuses are named, but for those that only cite one of them: where the proof stops. It is no counterexample.\n")
    print("| wrong | definition in | refused |\n|---|---|---|")
    left = 0
    for what, crate, file, old, new in WRONG:
        path = room / "crates" / crate / "specs" / (file + ".antt")
        text = path.read_text()
        if text.count(old) != 1:
            sys.exit(f"{what}: the old text stands {text.count(old)} times in {path}")
        path.write_text(text.replace(old, new))
        refused = check(room)
        path.write_text(text)
        left += refused is None
        where = ", ".join(f"`{name}` ({file})" for file, name in refused) if refused else "**not refused**"
        print(f"| {what} | `{crate}/specs/{file}.antt` | {where} |", flush=True)
    shutil.rmtree(room)
    sys.exit(1 if left else 0)


if __name__ == "__main__":
    main()
