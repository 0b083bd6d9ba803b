//! Prints the Rust's coefficients, TSRKC2's without a history, one line a stage: family, s, j, then mu, nu, mu_tilde, gamma_tilde
//! (in RKC nu_tilde, in RKMC2 b_previous, in TSRKC2 0), theta, omega_one and first_mu_tilde as bits.
use std::io::{BufWriter, Write};

fn main() -> std::io::Result<()> {
    eprintln!("{}", oracle::build());
    let mut out = BufWriter::new(std::io::stdout().lock());
    for family in oracle::FAMILIES {
        for stages in oracle::permitted(family) {
            let recorded = oracle::rows(family, stages);
            for row in recorded.rows {
                write!(out, "{family} {stages} {}", row.stage)?;
                for value in [
                    row.mu,
                    row.nu,
                    row.mu_tilde,
                    row.gamma_tilde,
                    row.theta,
                    recorded.omega_one,
                    recorded.first_mu_tilde,
                ] {
                    write!(out, " {:016X}", value.to_bits())?;
                }
                writeln!(out)?;
            }
        }
    }
    out.flush()
}
