//! The stage formulas of RKG by document 02, CR 5, and how they are put into family.rs of a checkout, which makes its test
//! build. The build script uses this file too. Of the Rust's text it holds the two expressions alone.

/// The number before limits of a family.
pub struct Formula {
    pub family: &'static str,
    /// As the checkout has it.
    pub expression: &'static str,
    /// As document 02 has it.
    pub formula: &'static str,
}

pub const FORMULAS: [Formula; 2] = [
    Formula {
        family: "RKG1",
        expression: "((9.0 + 16.0 * scaled_radius).sqrt() - 3.0) / 2.0",
        formula: "((9.0 + 8.0 * scaled_radius).sqrt() - 3.0) * 0.5",
    },
    Formula {
        family: "RKG2",
        expression: "((25.0 + 24.0 * scaled_radius).sqrt() - 3.0) / 2.0",
        formula: "((25.0 + 12.0 * scaled_radius).sqrt() - 3.0) * 0.5",
    },
];

/// A text with both formulas put in. Each expression must stand in it exactly once, since otherwise it is not known what
/// would be changed.
pub fn put_in(text: &str) -> Result<String, String> {
    let mut changed = text.to_string();
    for Formula {
        family,
        expression,
        formula,
    } in FORMULAS
    {
        let times = text.matches(expression).count();
        if times != 1 {
            return Err(format!(
                "{family}'s expression `{expression}` stands here {times} times, and not exactly once"
            ));
        }
        changed = changed.replace(expression, formula);
    }
    Ok(changed)
}

#[cfg(test)]
mod tests {
    use super::{FORMULAS, put_in};

    /// What stands around the two, some of it much like them.
    fn text(rkg1: &str, rkg2: &str) -> String {
        format!(
            "RKL2 (9.0 + 8.0 * scaled_radius).sqrt() - 1.0) / 2.0,\nRKG1 ({rkg1})\n    .ceil(),\n\
             RKG2 ({rkg2}) / 2.0, 16.0, 24.0\n"
        )
    }

    fn expressions() -> [&'static str; 2] {
        FORMULAS.map(|of| of.expression)
    }

    fn refused(text: &str, expression: &str, times: usize) {
        let error = put_in(text).expect_err("a refusal");
        assert!(error.contains(expression), "{error}");
        assert!(error.contains(&format!(" {times} times")), "{error}");
    }

    #[test]
    fn both_are_put_in_and_nothing_else_changes() {
        let [rkg1, rkg2] = expressions();
        let changed = text(
            "((9.0 + 8.0 * scaled_radius).sqrt() - 3.0) * 0.5",
            "((25.0 + 12.0 * scaled_radius).sqrt() - 3.0) * 0.5",
        );
        assert_eq!(put_in(&text(rkg1, rkg2)), Ok(changed));
    }

    #[test]
    fn a_missing_one_is_refused() {
        let [rkg1, rkg2] = expressions();
        refused(&text("1.0", rkg2), rkg1, 0);
        refused(&text(rkg1, "1.0"), rkg2, 0);
        refused("", rkg1, 0);
    }

    #[test]
    fn one_that_stands_twice_is_refused() {
        let [rkg1, rkg2] = expressions();
        for twice in [rkg1, rkg2] {
            refused(&(text(rkg1, rkg2) + twice), twice, 2);
        }
    }
}
