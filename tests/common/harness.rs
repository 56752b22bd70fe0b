//! What the tests that compare proved code have in common: the arguments, the messages, what a run must have met, and the
//! run on readers, watches or programs that are wrong on purpose, each of which must be found.

use std::process::ExitCode;

/// Nothing, or what the first difference was.
pub type Compared = Result<(), String>;

/// How often a run must meet each thing that it is to test, or it is no test of it.
pub const LEAST_MET: usize = 100;

/// What a run met.
pub trait Met {
    fn nothing() -> Self;
    fn is_enough(&self) -> bool;
    fn print(&self);
}

/// What can be compared in the place of the proved code, after its name; of one that is wrong on purpose, its fault.
pub type Named<T> = (&'static str, T);

pub trait Test {
    const NAME: &'static str;
    /// What the run on the proved code is given on the command line.
    const ARGUMENTS: &'static [&'static str] = &[];
    type Met: Met;
    type Subject;

    /// Compares the proved code.
    fn compare_proved(met: &mut Self::Met) -> Compared;

    /// Compares something else, on enough to find it where it is wrong.
    fn compare(subject: &Self::Subject) -> Compared;

    /// In these nothing is to be found.
    fn right() -> Vec<Named<Self::Subject>>;

    /// In each of these something is: a comparison that does not find it could not find such a fault in proved code.
    fn wrong() -> Vec<Named<Self::Subject>>;
}

/// Runs a test: on the proved code, or with --self-test on all others.
pub fn main<T: Test>() -> ExitCode {
    let arguments: Vec<String> = std::env::args().skip(1).collect();
    let passed = match arguments.iter().map(String::as_str).collect::<Vec<&str>>().as_slice() {
        ["--self-test"] => find_nothing_in_right::<T>() && find_wrong::<T>(),
        given if given.len() == T::ARGUMENTS.len() => compare_proved::<T>(),
        _ => {
            let given: String = T::ARGUMENTS.iter().map(|argument| format!(" {argument}")).collect();
            eprintln!("use: {0}{given}, or {0} --self-test", T::NAME);
            return ExitCode::from(2);
        }
    };
    if passed {
        ExitCode::SUCCESS
    } else {
        ExitCode::FAILURE
    }
}

fn compare_proved<T: Test>() -> bool {
    let mut met = T::Met::nothing();
    if let Err(difference) = T::compare_proved(&mut met) {
        println!("difference: {difference}");
        return false;
    }
    met.print();
    if !met.is_enough() {
        println!("one of these was met fewer than {LEAST_MET} times");
    }
    met.is_enough()
}

fn find_nothing_in_right<T: Test>() -> bool {
    T::right().iter().all(|(name, right)| {
        let compared = T::compare(right);
        match &compared {
            Ok(()) => println!("no difference: {name}"),
            Err(difference) => println!("difference in {name}: {difference}"),
        }
        compared.is_ok()
    })
}

/// Goes through all of them, those after one that is not found too.
fn find_wrong<T: Test>() -> bool {
    let is_missed = |(fault, wrong): &Named<T::Subject>| {
        let is_found = T::compare(wrong).is_err();
        println!("{}: {fault}", if is_found { "found" } else { "not found" });
        !is_found
    };
    T::wrong().into_iter().filter(is_missed).count() == 0
}
