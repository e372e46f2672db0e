//! The run against the kernel.

use super::ground::Ground;
use super::session::{Acted, Quirk, Session, mountable};
use crate::call::{Call, Target, Which};
use crate::case::{Case, Layers};
use crate::generate::{next_call, random_layers};
use crate::options::Options;
use crate::ours::Ours;
use crate::random::Random;
use crate::shrink::shrink_while;
use crate::side::{Make, Side};
use crate::text::{call_line, layers_lines};
use std::collections::BTreeMap;
use std::fmt;
use std::rc::Rc;
use std::time::Instant;

/// What a run against the kernel did.
#[derive(Default)]
pub struct Mounted {
    pub mounts: u64,
    pub diverged: u64,
    quirks: BTreeMap<Quirk, u64>,
    acted: BTreeMap<(Which, Acted), u64>,
}

/// Mounts random layers and compares the trees; whether one diverged.
pub fn run(options: &Options) -> bool {
    let ground = match Ground::new() {
        Ok(ground) => ground,
        Err(words) => {
            println!("skipped: {words}");
            return false;
        }
    };
    let ours =
        |layers: &Rc<Layers>| -> Box<dyn Side> { options.planted.map_or_else(|| Ours::side(layers), |planted| planted.side(layers)) };
    let mut mounted = Mounted::default();
    let found = random_mounts(&ground, &ours, options, &mut mounted);
    print!("{mounted}");
    if let Some((case, words)) = &found {
        print_found(&ground, &ours, case, words);
    }
    println!("{}", mounted.last_line());
    found.is_some()
}

fn random_mounts(ground: &Ground, make: Make, options: &Options, mounted: &mut Mounted) -> Option<(Case, String)> {
    let start = Instant::now();
    let mut number = 0;
    while mounted.mounts < options.mounts && options.time.is_none_or(|time| start.elapsed() < time) {
        let mut random = Random::of_case(options.seed, number);
        number += 1;
        let (layers, quirks) = mountable(&random_layers(&mut random).1);
        let acts = options.calls.iter().copied().filter(|which| which.writes()).collect::<Vec<_>>();
        let mut case = Case { layers: Rc::new(layers), calls: Vec::new() };
        match random_session(ground, make, &mut random, &acts, &mut case, mounted) {
            Ok(()) => quirks.into_iter().for_each(|quirk| mounted.met(Some(quirk))),
            Err(words) => {
                mounted.diverged += 1;
                return Some((case, words));
            }
        }
    }
    None
}

/// One mount: the trees compared, then some calls that write and mounts anew in between, compared after each; a mount anew comes last.
fn random_session(
    ground: &Ground,
    make: Make,
    random: &mut Random,
    acts: &[Which],
    case: &mut Case,
    mounted: &mut Mounted,
) -> Result<(), String> {
    let Some(mut session) = Session::new(ground, make, &case.layers)? else {
        mounted.met(Some(Quirk::NoNodeLimit));
        return Ok(());
    };
    let quirk = session.compare()?;
    mounted.met(quirk);
    if quirk == Some(Quirk::NoNodeLimit) {
        return Ok(());
    }
    mounted.mounts += 1;
    if acts.is_empty() {
        return Ok(());
    }
    for left in (0..random.from_to(6, 14)).rev() {
        let anew = left == 0 || random.chance(20);
        let call = if anew { Call::Import } else { next_call(random, acts, &session.side().standing(), session.layers()) };
        case.calls.push(call.clone());
        *mounted.acted.entry((call.which(), session.act(&call)?)).or_default() += 1;
        mounted.met(session.compare()?);
    }
    Ok(())
}

impl Mounted {
    /// How often this came of any call.
    fn all(&self, acted: Acted) -> u64 {
        self.acted.iter().filter(|((_, a), _)| *a == acted).map(|(_, n)| n).sum()
    }

    fn last_line(&self) -> String {
        let [made, refused, again] = [Acted::Made, Acted::Refused, Acted::Mounted].map(|acted| self.all(acted));
        let acts = format!("{made} acts, {refused} refused acts, {again} mounts anew");
        format!("diff, kernel: {} mounts, {acts}, {} unlisted divergences", self.mounts, self.diverged)
    }

    fn met(&mut self, quirk: Option<Quirk>) {
        if let Some(quirk) = quirk {
            *self.quirks.entry(quirk).or_default() += 1;
        }
    }
}

/// A line for each call that writes, then one for each thing that the kernel does otherwise.
impl fmt::Display for Mounted {
    fn fmt(&self, f: &mut fmt::Formatter<'_>) -> fmt::Result {
        for which in Which::ALL.into_iter().filter(|which| which.writes()) {
            let [made, refused] = [Acted::Made, Acted::Refused].map(|acted| self.acted.get(&(which, acted)).copied().unwrap_or(0));
            writeln!(f, "acts {:<8} made {made}, refused on both sides {refused}", which.word())?;
        }
        self.quirks.iter().try_for_each(|(quirk, times)| writeln!(f, "listed {quirk}: {times}"))
    }
}

/// Whether a case still diverges: its calls made, the trees compared after each and after a mount anew.
fn diverges(ground: &Ground, make: Make, case: &Case) -> bool {
    let compared = |session: &mut Session, calls: &[Call<Target>]| -> Result<(), String> {
        session.compare()?;
        for call in calls {
            session.act(call)?;
            session.compare()?;
        }
        session.again()?;
        session.compare().map(|_| ())
    };
    match Session::new(ground, make, &case.layers) {
        Ok(Some(mut session)) => compared(&mut session, &case.calls).is_err(),
        _ => false,
    }
}

fn print_found(ground: &Ground, make: Make, case: &Case, words: &str) {
    let small = shrink_while(case.clone(), &mut |candidate| diverges(ground, make, candidate));
    println!("a mount diverges: {words}\nShrunk as long as one does, as lines for replay:\n\n{}import", layers_lines(&small.layers));
    small.calls.iter().for_each(|call| println!("{}", call_line(call)));
}
