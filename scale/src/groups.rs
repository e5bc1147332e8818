//! Which images are compared: random ones of several sizes, damaged ones, and every case that the generator has.

use image::generator::rng::Rng;
use image::generator::{cases, Case, Known, Request};
use image::samples::{every, Sample};
use image::tree::most;

use crate::searches::searches;

/// Images under a name.
pub struct Group {
    pub name: &'static str,
    pub cases: Box<dyn Iterator<Item = Case> + Send>,
    /// The most atoms of a path whose queries are asked.
    pub most_atoms: usize,
    /// What the random numbers of its images' runs begin with.
    pub seed: u64,
}

/// The seed, and how much is compared.
#[derive(Clone, Copy, Debug)]
pub struct Size {
    pub seed: u64,
    /// How many images of mode 0 are random.
    pub random: usize,
    /// The most atoms of a path whose queries are asked, where there are many images.
    pub many: usize,
    /// The same, where there are few.
    pub few: usize,
    /// How long the longest search is, see `searches`.
    pub power: usize,
}

impl Size {
    /// A comparison of some minutes, in which no query of the samples and of the generator's own cases is left out.
    pub fn long(seed: u64, random: usize) -> Size {
        Size { seed, random, many: 16, few: 22, power: 7 }
    }

    /// A comparison of about a minute.
    pub fn short() -> Size {
        Size { seed: 1, random: 10_000, many: 12, few: 16, power: 0 }
    }
}

/// Every group.
pub fn groups(size: Size) -> Result<Vec<Group>, String> {
    let nothing = Request::default();
    let mode_0 = Request { mode: Some(0), ..nothing };
    let share = |percent: usize| size.random * percent / 100;
    let usual = size.random - share(10) - share(6) - share(2);
    let asked = [
        ("usual", size.many, Request { random: usual, ..mode_0 }),
        ("20 atoms", size.many, Request { random: share(10), most_atoms: 20, most_bytes: 6_000, ..mode_0 }),
        ("longer", size.many, Request { random: share(6), most_atoms: 14, most_bytes: 9_000, ..mode_0 }),
        ("longest", size.many, Request { random: share(2), most_atoms: 12, most_bytes: most::BYTES, ..mode_0 }),
        ("mode 1", size.many, Request { random: share(10), mode: Some(1), ..nothing }),
        ("damaged", size.many, Request { damaged: share(20), ..nothing }),
        ("cuts", size.many, Request { cuts: true, ..nothing }),
        ("limits", size.few, Request { limits: true, ..nothing }),
        ("rules", size.few, Request { rules: true, ..nothing }),
        ("parts", size.few, Request { parts: true, ..nothing }),
        ("formulas", size.few, Request { formulas: true, ..nothing }),
    ];
    let made = asked.into_iter().enumerate().map(|(number, (name, most_atoms, request))| {
        let seed = Rng::member(size.seed, 0, number as u64).number();
        Group { name, cases: Box::new(cases(seed, &request)), most_atoms, seed }
    });
    let samples = Group { name: "samples", cases: Box::new(every()?.into_iter().map(case)), most_atoms: size.few, seed: size.seed };
    let searches = Group { name: "searches", cases: Box::new(searches(size.power).into_iter()), most_atoms: size.many, seed: size.seed };
    Ok([samples].into_iter().chain(made).chain([searches]).collect())
}

/// A sample as a case.
fn case(sample: Sample) -> Case {
    Case::new(sample.name, sample.image, Known::Nothing)
}
