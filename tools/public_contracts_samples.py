"""The samples of tools/public-contracts: a good repository, and changes of it, each with the rules that it breaks.

The good one has an impl of its trait, one of `From` and one of an iterator, and two that are held to nothing: that of a type which is
the crate's own, and that of a program."""
EXCEPTIONS = "docs/CONTRACT-EXCEPTIONS.md"
SAMPLE = {
    "crates/sample/src/part.rt": """pub struct Held<'a> {\n    pub bytes: &'a [u8],\n}\n
impl<'a> Held<'a> {\n    // {\n    pub fn put_in(self, out: &'a mut [u8]) -> u8\n        ensures value { result ≡ b'{' }
        ensures out_after { out.new ≡ filled self out.old }\n    {\n        b'{'\n    }\n}\n
pub fn of(x: u8, h: Held<'_>) -> u8\n    ensures { result ≡ record { 0 = x } }\n{\n    x\n}\n""",
    "crates/sample/src/kept.rt": """ghost use Rattle.sample.specs.Turning.{Turns};\n
pub trait Kept<const N: usize>: Copy {\n    type Said: Copy;\n\n    ghost say_of: { ℕ → Self.Said };\n\n    const SIZE: usize;\n
    fn say(ring: &mut [[u8; N]; 2]) -> [Self::Said; 2]\n    where\n        [u8; N]: Copy,\n        ensures value { result ≡ say_of N }
        ensures ring_after { ring.new ≡ ring.old };\n
    fn none(at: usize) -> u8\n        ensures { result ≡ none };\n
    fn rest(at: usize) -> u8\n        ensures { result ≡ at }\n    {\n        at\n    }\n\n    ghost due: { ℕ };\n}\n
impl<'a> Kept<9> for Held<'a> {\n    ghost say_of = { say_of };\n
    fn say(ring: &mut [[u8; 9]; 2]) -> [u8; 2] {\n        [0; 2]\n    }\n\n    fn none(at: usize) -> u8 {\n        0\n    }\n}\n
impl From<u8> for Held<'_> {\n    ghost from_gives = { λ byte held. held ≡ holding byte };\n
    fn from(byte: u8) -> Self {\n        holding(byte)\n    }\n}\n
impl<'a> Iterator for Held<'a> {\n    type Item = u8;\n\n    ghost next_gives = { Turns };\n
    fn next(&mut self) -> Option<u8> {\n        None\n    }\n}\n
pub(crate) struct Own;\n\nimpl From<u8> for Own {\n    fn from(number: u8) -> Self {\n        Own\n    }\n}\n""",
    "crates/program/src/main.rt": "pub struct Op;\n\nimpl From<u8> for Op {\n    fn from(number: u8) -> Self {\n        Op\n    }\n}\n",
    "crates/sample/proofs/Unique.antt": """use Rattle.laws.proofs.Coincide.{Coincide}\nuse Rattle.sample.specs.Turning.{Turns}
use Rattle.sample.proofs.Held.put_in.Kinds as put-kinds\nuse Rattle.sample.proofs.Held.put_in.Reads as put-reads
use Rattle.sample.proofs.part.of.Kinds as of-kinds\nuse Rattle.sample.proofs.part.of.Reads as of-reads
use Rattle.sample.proofs.kept.HeldKept9.say.Kinds as say-kinds\nuse Rattle.sample.proofs.kept.HeldKept9.say.Reads as say-reads
use Rattle.sample.proofs.kept.HeldKept9.none.Kinds as none-kinds\nuse Rattle.sample.proofs.kept.HeldKept9.none.Reads as none-reads
use Rattle.sample.proofs.kept.Kept.rest.Kinds as rest-kinds\nuse Rattle.sample.proofs.kept.Kept.rest.Reads as rest-reads
use Rattle.sample.proofs.kept.HeldFromU8.from.Kinds as held-kinds\nuse Rattle.sample.proofs.kept.HeldFromU8.from.Reads as held-reads
pub put_in_one : (κs : Lfts 1) (a : Dens κs put-kinds.ps) (x y : (res_t put-kinds.r κs).Denot)
    (e f : AtExit (ended_of 1 put-kinds.ps put-kinds.r) κs) → put-reads.Post κs a x e → put-reads.Post κs a y f
    → (x ≡ y) × (e.1.0.now ≡ f.1.0.now)\nput_in_one κs a x y e f p q = (cc, cc)
pub of_one : Coincide 0 of-kinds.ps of-kinds.r of-reads.Post\nof_one κs a x y e f p q = cc
pub say_one : (κs : Lfts 1) (a : Dens κs say-kinds.ps) (x y : (res_t say-kinds.r κs).Denot)
    (e f : AtExit (ended_of 1 say-kinds.ps say-kinds.r) κs) → say-reads.Post κs a x e → say-reads.Post κs a y f
    → (x ≡ y) × (e.0.now ≡ f.0.now)\nsay_one κs a x y e f p q = (cc, cc)
pub none_one : Coincide 0 none-kinds.ps none-kinds.r none-reads.Post\nnone_one κs a x y e f p q = cc
pub rest_one : (t : _) → Coincide 0 (rest-kinds.ps t) (rest-kinds.r t) (rest-reads.Post t)\nrest_one t κs a x y e f p q = cc
pub held_one : Coincide 0 held-kinds.ps held-kinds.r held-reads.Post\nheld_one κs a x y e f p q = cc
pub next_one : (w : Held) (found other : Option u8) (past beyond : Held) → Turns w found past → Turns w other beyond
    → (found ≡ other) × (past ≡ beyond)\nnext_one w found other past beyond p q = (cc, cc)\n""",
    EXCEPTIONS: "| Crate | Function | Rule | Ground |\n|---|---|---|---|\n",
}
GENERIC = "pub of_one : (t : _) (laws : _) → Coincide 0 (of-kinds.ps t laws) (of-kinds.r t laws) (of-reads.Post t laws)\nof_one t laws κs"
MODULE = "module _ (T : Row) (n : ℕ) where\n  pub of_one : Coincide 0 (of-kinds.ps T n) (of-kinds.r T n) (of-reads.Post T n)\n  of_one κs"
STATED = "pub of_one : Coincide 0 of-kinds.ps of-kinds.r of-reads.Post\nof_one κs"
LEMMA = "where\n  lemma : (nine : ℕ) → nine ≡ nine\n  lemma nine = refl\n"
INNER = MODULE.replace(" (n : ℕ)", "").replace("where\n", "where\n  module _ (n : ℕ) where\n  ").replace("  of_one", "    of_one")
PART, ROWS, TEST = "result ≡ record { 0 = x }", "|---|---|---|---|\n", "ensures { result ≡ none }"
# of each change of the good sample: the rules that it breaks, and what gets another text
CHANGES = {
    "no change": ("",),
    "no clause": ("says", f"    ensures {{ {PART} }}\n", ""),
    "a clause that says nothing": ("says", f"{{ {PART} }}", "{ Unit {0} }"),
    "a function that asks": ("asks", f"    ensures {{ {PART}", f"    requires {{ x < 9 }}\n    ensures {{ {PART}"),
    "an answer of which a part is said": ("answer", PART, "bits result ≡ x"),
    "lent bytes of which the length is said": ("lent", "out.new ≡ filled self", "length out.new ≡ length"),
    "lent bytes in a struct": ("lent one", "pub bytes: &'a [u8]", "pub bytes: &'a mut [u8]"),
    "no theorem": ("one", "pub of_one", "pub off_one"),
    "a theorem of a generic function": ("", STATED, GENERIC),
    "one in a module": ("", STATED, MODULE),
    "one in a module that bears a comment": ("", STATED, MODULE.replace("where\n", "where\n -- any row\n")),
    "one that binds further names in a module": ("", STATED, MODULE.replace(" (n : ℕ)", "").replace("of_one :", "of_one : (n : _) →")),
    "one of a single type": ("one", STATED, GENERIC.replace("ps t laws", "ps t nine")),
    "one of a single type in a module": ("one", STATED, MODULE.replace("Post T n", "Post T nine")),
    "one under a condition": ("one", STATED, "module _ (no : Void) where\n  " + STATED.replace("\n", "\n  ")),
    "one in a module with a further condition": ("one", STATED, MODULE.replace("(n : ℕ)", "(n : ℕ) (only : n ≡ 9)")),
    "one under a condition of its own": ("one", STATED, STATED.replace(" :", " : (no : _) →")),
    "one in a named module": ("one", STATED, MODULE.replace("module _", "module Row")),
    "one with a condition that is found by itself": ("one", STATED, MODULE.replace("(n : ℕ)", "(n : ℕ) {no : Void}")),
    "one of a type and itself": ("one", STATED, GENERIC.replace("laws", "t").replace(" (t : _) (t : _)", " (t : _)")),
    "one of names that stand twice": ("one", STATED, GENERIC.replace("laws", "t")),
    "one of names in another order": ("one", STATED, MODULE.replace("Post T n", "Post n T")),
    "one at a name left out": ("one", STATED, MODULE.replace("(n : ℕ)", "(_ : ℕ)").replace(" n)", " _)")),
    "one of a lemma's name": ("one", STATED, MODULE.replace(" (n : ℕ) where\n", f" {LEMMA}\n").replace(" n)", " nine)")),
    "one behind a module": ("one", STATED, MODULE.replace("where\n", LEMMA).replace("\n  pub", "\npub").replace("\n  of", "\nof")),
    "one beside a module": ("one", STATED, MODULE.replace("where\n", LEMMA).replace("\n  pub", "\n pub").replace("\n  of", "\n of")),
    "one in a module's inner module": ("one", STATED, INNER),
    "a theorem in a comment": ("one", "pub of_one", "-- pub of_one"),
    "a theorem of another function's contract": ("one", "of-kinds.r of-reads", "of-kinds.r put-reads"),
    "a theorem of another module's function": ("one", "proofs.part.of.Reads", "proofs.other.of.Reads"),
    "a theorem that leaves the lent bytes out": ("one", " × (e.1.0.now ≡ f.1.0.now)", ""),
    "a theorem of other bytes": ("one", "e.1.0.now ≡ f.1.0.now", "e.2.now ≡ f.2.now"),
    "a `Coincide` of its own": ("one one one one", "use Rattle.laws.proofs.Coincide.{Coincide}\n", ""),
    "a trait's function that says nothing": ("says", f"\n        {TEST}", ""),
    "a trait's function that asks": ("asks", TEST, f"requires {{ at < 9 }} {TEST}"),
    "a trait's function of whose answer a part is said": ("answer", TEST, "ensures { bits result ≡ none }"),
    "a trait's function that says nothing of what is lent": ("lent", "ring.new ≡ ring.old", "ring.old ≡ ring.old"),
    "a trait's function with a body and no theorem": ("one", "pub rest_one", "pub other_one"),
    "a trait that is the crate's own": ("", "pub trait", "pub(crate) trait", TEST, "requires { at < 9 }"),
    "an impl's function with no theorem": ("one", "pub none_one", "pub other_one"),
    "an impl's function that asks": ("asks", "fn none(at: usize) -> u8 {", "fn none(at: usize) -> u8 requires { at < 9 } {"),
    "a theorem of another impl's function": ("one", "kept.HeldKept9.none.Reads", "kept.HeldKept8.none.Reads"),
    "an impl's theorem that leaves the lent bytes out": ("one", " × (e.0.now ≡ f.0.now)", ""),
    "an impl of a trait for a type that is the crate's own": ("one", "impl From<u8> for Own", "impl Kept<9> for Own"),
    "an impl of another trait for a public type": ("one", "impl From<u8> for Own", "impl Hash for Held<'_>"),
    "a `from_gives` gone": ("answer", "ghost from_gives = { λ byte held. held ≡ holding byte };", ""),
    "a `from_gives` that is no equation": ("answer", "held ≡ holding byte", "held.byte ≡ byte"),
    "a `from_gives` that says nothing": ("answer", "held ≡ holding byte", "held ≡ held"),
    "no theorem of a `from`": ("one", "pub held_one", "pub held_is"),
    "a theorem of another `from`": ("one", "HeldFromU8.from.Reads", "HeldFromU16.from.Reads"),
    "an impl of From for a public type": ("answer one", "pub(crate) struct Own", "pub struct Own"),
    "no theorem of a `next`": ("one", "pub next_one", "pub next_is"),
    "a `next_gives` gone": ("one", "ghost next_gives = { Turns };", ""),
    "a `next_gives` that another module declares": ("one", "use Rattle.sample.specs.Turning.{Turns}\n", "use Rattle.sample.Other.{Turns}\n"),
    "a theorem of a `next` under a condition": ("one", "pub next_one :", "pub next_one : (no : _) →"),
    "a brace that nothing closes": ("unread", "pub(crate) struct Own;", "pub(crate) struct Own {"),
    "a brace that closes nothing": ("unread", "pub(crate) struct Own;", "pub(crate) struct Own; }"),
    "an exception that excuses": ("", PART, "bits result ≡ x", ROWS, ROWS + "| `sample` | `of` | `answer` | a part is enough |\n"),
    "an exception that excuses nothing": ("row", ROWS, ROWS + "| `sample` | `of` | `answer` | a part is enough |\n"),
    "an exception with no ground": ("answer row", PART, "bits result ≡ x", ROWS, ROWS + "| `sample` | `of` | `answer` | |\n"),
}
