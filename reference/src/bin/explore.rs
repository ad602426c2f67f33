//! Prints how many states and calls the explorer sees under the paper's rules, and for each mistake the claim that
//! fails and a shortest history on which it does.

#![forbid(unsafe_code)]

use reference::explorer::{explore, SIZES};
use reference::mistakes::{Mistake, Rules};
use reference::refutation::refute;
use std::process::ExitCode;

fn main() -> ExitCode {
    let (sound, refuted) = (paper_holds(), mistakes_fail());
    if sound && refuted {
        ExitCode::SUCCESS
    } else {
        ExitCode::FAILURE
    }
}

/// Explores under the paper's rules, with all claims.
fn paper_holds() -> bool {
    println!("The paper's rules, all claims in each state and of each call:");
    let mut holds = true;
    for (n, b) in SIZES {
        let survey = explore(Rules::PAPER, Rules::PAPER, (n, b), |_| true);
        let (states, calls) = (survey.states, survey.transitions);
        println!("  n = {n}, b = {b}: {states} states, {calls} calls");
        if let Some(failure) = survey.failure {
            println!("  FAILS: {}", failure.claim.words(Rules::PAPER));
            println!("  {}", failure.history.join(", "));
            holds = false;
        }
    }
    holds
}

/// Explores under each mistake.
fn mistakes_fail() -> bool {
    let mut all = true;
    for (mistake, name) in Mistake::ALL {
        println!("\n{name}");
        match refute(mistake) {
            Some(refutation) => {
                let claim = refutation.claim.words(Rules::with(mistake));
                println!("  fails: {claim}");
                println!("  {}", refutation.lines.join("\n  "));
            }
            None => {
                println!("  NOT REFUTED");
                all = false;
            }
        }
    }
    all
}
