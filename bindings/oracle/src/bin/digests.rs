//! Prints what the program `rows` must write (crates/rows/stdout), from the Rust's coefficients, TSRKC2's without a history: a
//! digest for each family and count, then every row of one count.
//!
//! The digest is FNV-1a, 64 bits, over omega_one, first_mu_tilde and each row's mu, nu, mu_tilde, gamma_tilde (in RKC
//! nu_tilde, in RKMC2 b_previous, in TSRKC2 0) and theta, the bytes of a double's bits from the lowest on.
use oracle::{Row, Rows};

/// The count whose rows are printed whole; every family permits it.
const SAMPLE: usize = 9;

fn main() {
    eprintln!("{}", oracle::build());
    for family in oracle::FAMILIES {
        for stages in oracle::permitted(family) {
            println!(
                "{family} {stages} {:016x}",
                digest(&oracle::rows(family, stages))
            );
        }
    }
    for family in oracle::FAMILIES {
        let recorded = oracle::rows(family, SAMPLE);
        for row in &recorded.rows {
            print!("{family} {SAMPLE} {}", row.stage);
            for value in doubles(row)
                .into_iter()
                .chain([recorded.omega_one, recorded.first_mu_tilde])
            {
                print!(" {:016x}", value.to_bits());
            }
            println!();
        }
    }
}

fn digest(recorded: &Rows) -> u64 {
    [recorded.omega_one, recorded.first_mu_tilde]
        .into_iter()
        .chain(recorded.rows.iter().flat_map(doubles))
        .flat_map(|value| value.to_bits().to_le_bytes())
        .fold(0xcbf2_9ce4_8422_2325, |hash: u64, byte| {
            (hash ^ u64::from(byte)).wrapping_mul(0x100_0000_01b3)
        })
}

fn doubles(row: &Row) -> [f64; 5] {
    [row.mu, row.nu, row.mu_tilde, row.gamma_tilde, row.theta]
}
