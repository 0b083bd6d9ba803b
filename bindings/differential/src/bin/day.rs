//! A day driven through the Rust's test build: what the program `day` writes of the text on standard input (a day that is not
//! malformed), or with the argument `minutes` the lines that the program `days` writes of its minutes: the junction's bits
//! and s, k and the bits of r, or 0, 0 and the bits of 0 where the minute is not finished. Before the first minute in which the
//! Rust does not count ([`cause`]) it goes over to the definition, as standard error then tells, and stays there.
//!
//! The same model and the same order of calls: each minute begins with `accept_step`, or with `initialize` on a kernel made
//! anew where the last attempt was refused, and goes on with one attempt of 60 seconds. So TSRKC2 has a history in every minute
//! but the first and those after a refused attempt. The candidate is evaluated with the next finite reading. It is known as the
//! last of the attempt's s + k evaluations, and not by its time, since RKMC2's last stage may have the same. A minute whose
//! reading is not finite calls nothing: it is refused with 9, and the kernel stands.
use differential::other::{Made, Other, Replying, Rhs, cause};
use differential::stated::{Stated, finite};
use oracle::{Arguments, Figures, Oracle, RightHandSide, SolveError};
use stabilized::calls::{VECTORS, vector};
use std::cell::Cell;
use std::io::Read;

#[derive(Clone, Copy)]
struct Inverter {
    family: u64,
    n: usize,
    initial: f64,
    ambient: f64,
    conduct: f64,
    cool: f64,
    heat: f64,
    rated: f64,
}

fn double(field: &str) -> f64 {
    f64::from_bits(u64::from_str_radix(field, 16).expect("a double's bits"))
}

fn inverter(line: &str) -> Inverter {
    let fields: Vec<&str> = line.split(' ').collect();
    let [family, n, initial, ambient, conduct, cool, heat, rated] = fields[..] else {
        panic!("eight fields in line 1");
    };
    Inverter {
        family: family.parse().expect("a family"),
        n: n.parse().expect("a count"),
        initial: double(initial),
        ambient: double(ambient),
        conduct: double(conduct),
        cool: double(cool),
        heat: double(heat),
        rated: double(rated),
    }
}

impl Inverter {
    fn rates(&self, derivative: &mut [f64], point: &[f64], reading: f64) {
        for i in 0..point.len() {
            let into = match i {
                0 => self.heat * reading,
                _ => self.conduct * (point[i - 1] - point[i]),
            };
            let out = match point.get(i + 1) {
                Some(next) => self.conduct * (point[i] - next),
                None => self.cool * (point[i] - self.ambient),
            };
            derivative[i] = into - out;
        }
    }
}

/// The replies of a minute: by its reading, but of the candidate by the upcoming one.
#[derive(Clone, Copy)]
struct Minute {
    inverter: Inverter,
    reading: f64,
    upcoming: f64,
    /// The candidate's place among the evaluations, once it is known.
    candidate: Option<u64>,
}

impl Replying for Minute {
    fn in_turn(&self) -> impl RightHandSide {
        let place = Cell::new(0);
        move |derivative: &mut [f64], point: &[f64], _| {
            let here = place.replace(place.get() + 1);
            let watts = if self.candidate == Some(here) {
                self.upcoming
            } else {
                self.reading
            };
            self.inverter.rates(derivative, point, watts);
            Ok(())
        }
    }
}

/// How a minute ends: with the figures of its attempt, or the number that it is refused with.
type Ended = Result<Figures, u64>;

/// One day: the kernel while it goes on, the state that is kept, and what is counted.
struct Day {
    inverter: Inverter,
    other: Option<Other>,
    /// Whether the definition alone counts.
    alone: bool,
    kept: Vec<f64>,
    evaluations: u64,
    above: u64,
    /// How each minute ended, and the junction's temperature then.
    minutes: Vec<(Ended, f64)>,
}

impl Day {
    fn new(inverter: Inverter) -> Self {
        Self {
            kept: vec![inverter.initial; inverter.n],
            inverter,
            other: None,
            alone: false,
            evaluations: 0,
            above: 0,
            minutes: Vec::new(),
        }
    }

    /// The junction's present temperature: of the candidate that is not accepted yet, else of the kept state.
    fn junction(&self) -> f64 {
        match &self.other {
            Some(other) => other.vectors()[vector::CANDIDATE][0],
            None => self.kept[0],
        }
    }

    /// A kernel before any start.
    fn made_anew(&self) -> Other {
        let Inverter { family, n, .. } = self.inverter;
        if self.alone {
            let zeros = vec![0.0; n];
            Other::Stated(Stated::with_vectors(family, [&zeros; VECTORS], None))
        } else {
            Other::Rust(Oracle::new(family, n))
        }
    }

    /// A call on a kernel with the replies of a minute: the kernel afterwards and what the call gave, or the number that the
    /// minute is refused with. Where it is the candidate that is not finite, the replies all were.
    fn call(
        &mut self,
        other: &Other,
        minute: &Minute,
        call: impl Fn(&mut Other, &Rhs) -> Result<Option<Figures>, SolveError>,
    ) -> Result<(Other, Option<Figures>), u64> {
        let made = Made::on(other, minute, None, &call);
        self.evaluations += made.evaluated.len() as u64;
        let candidate = made.kernel.vectors()[vector::CANDIDATE];
        match made.end {
            Ok(given) => Ok((made.kernel, given)),
            Err(SolveError::NonFiniteDerivative) if finite(candidate) => Err(9),
            Err(SolveError::NonFiniteDerivative) => Err(10),
            Err(SolveError::TooManyStages) => Err(11),
            Err(error) => panic!("{} ended with {error:?}", made.kernel.name()),
        }
    }

    /// A kernel at the beginning of a minute: after `accept_step`, or made anew where the last attempt was refused.
    fn begun(&mut self, start: f64, minute: &Minute) -> Result<Other, u64> {
        if let Some(mut other) = self.other.take() {
            other.accept(start - STEP, STEP);
            self.kept = other.vectors()[vector::STATE].to_vec();
            return Ok(other);
        }
        let kept = self.kept.clone();
        let made_anew = self.made_anew();
        let begun = self.call(&made_anew, minute, |other, rhs| {
            other.initialize(&kept, start, rhs)
        });
        begun.map(|(other, _)| other)
    }

    /// The kernel for an attempt: by the definition, where the Rust does not count in it.
    fn counting(&mut self, other: Other, arguments: Arguments, minute: &Minute) -> Other {
        let family = self.inverter.family;
        if let Other::Rust(rust) = &other
            && let Some(cause) = cause(rust, family, arguments, minute, None)
        {
            let minute = self.minutes.len();
            eprintln!(
                "by the definition from minute {minute} on: {}",
                cause.name()
            );
            self.alone = true;
            let stated = Stated::with_vectors(family, rust.vectors(), rust.history());
            return Other::Stated(stated);
        }
        other
    }

    /// One minute whose reading is finite.
    fn entered(&mut self, start: f64, mut minute: Minute) -> Ended {
        let other = self.begun(start, &minute)?;
        let arguments = arguments(start);
        let family = self.inverter.family;
        let stated = Stated::with_vectors(family, other.vectors(), other.history());
        let length = stated.length(arguments, &minute.in_turn());
        minute.candidate = length.ok().map(|length| length - 1);
        let other = self.counting(other, arguments, &minute);
        let iteration = other.iteration(arguments, &minute);
        let (other, figures) = self.call(&other, &minute, |other, rhs| {
            other.attempt(&iteration, arguments, rhs)
        })?;
        self.other = Some(other);
        Ok(figures.expect("an attempt has figures"))
    }

    /// One minute.
    fn minute(&mut self, minute: usize, reading: f64, upcoming: f64) {
        let ended = if reading.is_finite() {
            let replies = Minute {
                inverter: self.inverter,
                reading,
                upcoming,
                candidate: None,
            };
            self.entered((60 * minute) as f64, replies)
        } else {
            Err(9)
        };
        let junction = self.junction();
        self.above += u64::from(ended.is_ok() && junction > self.inverter.rated);
        self.minutes.push((ended, junction));
    }

    fn print(&self) {
        let finished = self.minutes.iter().filter(|(ended, _)| ended.is_ok());
        let finished = finished.count();
        println!("total {:016X}", (self.above as f64 / 60.0).to_bits());
        let decimals = self.above % 60 * 10000 / 60;
        println!("hours above {}.{decimals:04}", self.above / 60);
        println!("minutes above {}", self.above);
        println!("evaluations {}", self.evaluations);
        println!("finished attempts {finished}");
        println!("refused minutes {}", self.minutes.len() - finished);
        for (minute, (ended, _)) in self.minutes.iter().enumerate() {
            if let Err(number) = ended {
                println!("minute {minute} refused with {number}");
            }
        }
    }

    fn print_minutes(&self) {
        for (ended, junction) in &self.minutes {
            let (stages, passes, radius) = match ended {
                Ok(figures) => (figures.stages, figures.passes, figures.scaled_radius),
                Err(_) => (0, 0, 0.0),
            };
            let [junction, radius] = [*junction, radius].map(bits);
            println!("{junction:016X} {stages} {passes} {radius:016X}");
        }
    }
}

/// A minute, in seconds.
const STEP: f64 = 60.0;

/// The attempt of a minute that starts at this time.
fn arguments(start: f64) -> Arguments {
    Arguments {
        time: start,
        step: STEP,
        absolute_tolerance: 1.0,
        relative_tolerance: 1.0,
        adaptive: false,
    }
}

/// A double's bits; one pattern for every NaN.
fn bits(x: f64) -> u64 {
    if x.is_nan() {
        0x7FF8_0000_0000_0000
    } else {
        x.to_bits()
    }
}

fn main() {
    let mut text = String::new();
    std::io::stdin()
        .read_to_string(&mut text)
        .expect("a text on standard input");
    let mut lines = text.lines();
    let mut day = Day::new(inverter(lines.next().expect("line 1")));
    let readings: Vec<f64> = lines.map(double).collect();
    for (minute, &reading) in readings.iter().enumerate() {
        let later = readings[minute + 1..].iter().find(|x| x.is_finite());
        day.minute(minute, reading, *later.unwrap_or(&reading));
    }
    match std::env::args().nth(1).as_deref() {
        None => day.print(),
        Some("minutes") => day.print_minutes(),
        Some(other) => panic!("minutes, or nothing, and not {other}"),
    }
}
