//! Choices between two expressions, and comparisons to choose by.

use super::{Kind, Writer};

impl Writer<'_> {
    /// An if both of whose parts give the kind.
    pub(super) fn choice(&mut self, kind: Kind, fuel: usize) {
        self.text("(if ");
        self.asked(fuel / 2);
        self.text(" ");
        self.expr(kind, fuel);
        self.text(" ");
        self.expr(kind, fuel);
        self.text(")");
    }

    /// What an if asks: a comparison, one of the values at which the answer turns, or anything.
    fn asked(&mut self, fuel: usize) {
        match self.rng.below(7) {
            0 | 1 => self.comparison(fuel),
            2 => {
                let value = self.rng.pick(&["null", "0", "1"]);
                self.text(value);
            }
            3 => self.expr(Kind::Number, fuel),
            4 => self.expr(Kind::Future, fuel),
            _ => {
                let kind = self.kind();
                self.expr(kind, fuel);
            }
        }
    }

    /// A comparison, mostly within a kind; a variable of that kind is then easily found on both sides.
    pub(super) fn comparison(&mut self, fuel: usize) {
        let first = self.kind();
        let second = if self.rng.chance(70) { first } else { self.kind() };
        self.pair("same", Some(first), second, fuel);
    }
}
