//! The file as a whole: crates/examples/proofs/Told.antt.

const HEAD: &str = "\
-- Calls with their whole replies, as the second program gives them: written by `make told`.
use Prim.Native.Nat.{ℕ}
use mathlib.Core.List.{List, [], ◌∷◌}
use Rattle.rules.proofs.Whole.{at, spread, table, roll, held, log}
use Rattle.flat.specs.declared.FlatKiosk.{FlatKiosk}
use Rattle.flat.specs.declared.FlatInput.{FlatInput}
use Rattle.flat.specs.declared.FlatReply.{FlatReply}
use Rattle.flat.specs.declared.FlatMade.{FlatMade}
use Rattle.flat.specs.declared.FlatPart.{FlatPart}
use Rattle.examples.specs.Cases.{Call, puts, Opening, opens, Creating, creates, Showing, shows}
use Rattle.examples.specs.Flat.{input, out, kiosk, reply, refuses, made, part, Calls}
";

const FOOT: &str = "
unfoldable pub told : Calls
unfolding calls openings creatings showings
told = record { calls = calls; openings = openings; creatings = creatings; showings = showings }

unfoldable pub the_told : Unit {0}
unfolding calls openings creatings showings told
the_told = tt
";

/// A list that grows by whole cases, with a line here and there that says what the next ones are about.
#[derive(Default)]
pub struct Cases {
    lines: Vec<String>,
    pub count: usize,
}

impl Cases {
    pub fn about(&mut self, what: &str) {
        self.lines.push(format!("    -- {what}\n"));
    }

    /// A case of some parts, a part to a line.
    pub fn add(&mut self, parts: &[String]) {
        self.lines.push(format!("    {} ∷\n", parts.join("\n    ")));
        self.count += 1;
    }

    fn declared(&self, name: &str, of: &str) -> String {
        let lines = self.lines.concat();
        format!("\nunfoldable {name} : List ({of})\n{name} =\n{lines}    []\n")
    }
}

/// All that is told.
#[derive(Default)]
pub struct File {
    pub calls: Cases,
    pub openings: Cases,
    pub creatings: Cases,
    pub showings: Cases,
}

impl File {
    pub fn text(&self) -> String {
        [
            HEAD.to_string(),
            self.calls
                .declared("calls", "Call FlatInput FlatKiosk FlatReply"),
            self.openings.declared("openings", "Opening FlatReply"),
            self.creatings.declared("creatings", "Creating FlatMade"),
            self.showings
                .declared("showings", "Showing FlatKiosk ℕ FlatPart"),
            FOOT.to_string(),
        ]
        .concat()
    }
}
