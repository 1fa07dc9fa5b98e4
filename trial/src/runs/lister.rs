//! Runs under trial; those of a list also step by step.

use super::guarantee;
use super::lists::List;
use crate::check;
use crate::machine::{After, Call, RunCall, Shown, StepCall, Subject};
use crate::tally::Tally;
use sim7700::generate::RunCase;

/// Check, step and run under trial.
pub struct Lister {
    check: check::Subject,
    step: Subject,
    run: Subject,
    steps: u64,
    calls: u64,
}

impl Lister {
    pub fn new(check: check::Call, step: StepCall, run: RunCall) -> Lister {
        Lister {
            check: check::Subject::new(check),
            step: Subject::new(Call::Step(step)),
            run: Subject::new(Call::Run(run)),
            steps: 0,
            calls: 0,
        }
    }

    /// Completed steps of all lists so far.
    pub fn steps(&self) -> u64 {
        self.steps
    }

    /// Calls among them.
    pub fn calls(&self) -> u64 {
        self.calls
    }

    /// The number of a single run, or what differs.
    pub fn alone(&mut self, case: &RunCase) -> Result<u8, String> {
        self.run.compare(case).map(After::number)
    }

    /// Counts each run of a list; a difference ends it.
    pub fn go_through(&mut self, list: &List, tally: &mut Tally) {
        match self.check.compare(&list.program) {
            Ok(0) => {}
            Ok(number) => return tally.note(Err(format!("not accepted: {number}"))),
            Err(difference) => return tally.note(Err(difference)),
        }
        let mut next = list.first.clone();
        for turn in &list.turns {
            let outcome = self.one_run(&list.program.marks, &turn.case(&next));
            let number = outcome.as_ref().map(After::number);
            tally.note(number.map_err(String::clone));
            match outcome {
                Ok(after) if after.answer as u8 == 0 => {
                    (next.state, next.ram) = (after.state, after.ram)
                }
                // A refused run left all as it was.
                Ok(_) => {}
                Err(_) => return,
            }
        }
    }

    /// What both leave after a run, or what differs or is not as promised.
    fn one_run(&mut self, marks: &[u8], case: &RunCase) -> Result<After, String> {
        let after = self.run.compare(case)?.clone();
        if after.answer as u8 == 0 {
            self.steps += after.completed();
            self.calls += after.calls();
            guarantee::at_end(after.number()).map_err(|why| format!("{why}\n{}", Shown(case)))?;
            let stepped = self.stepped(marks, case)?;
            if stepped != after {
                return Err(format!("the run is not its steps\n{}", Shown(case)));
            }
        }
        Ok(after)
    }

    /// What the steps of a run leave one after another, with the run's answer.
    fn stepped(&mut self, marks: &[u8], case: &RunCase) -> Result<After, String> {
        let mut now = case.clone();
        let (mut end, mut done, mut calls) = (0, 0, 0);
        while done < case.steps && end == 0 {
            guarantee::at_begin(marks, &now).map_err(|why| format!("{why}\n{}", Shown(&now)))?;
            let after = self.step.compare(&now)?;
            end = after.number();
            done += after.completed() as u32;
            calls += after.calls();
            now.state.copy_from_slice(&after.state);
            now.ram.copy_from_slice(&after.ram);
        }
        Ok(After {
            answer: (end as u64) << 8 | (done as u64) << 16 | calls << 40,
            state: now.state,
            ram: now.ram,
        })
    }
}
