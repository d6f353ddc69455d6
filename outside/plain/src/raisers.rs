//! The fifth number over the schedule. The machine is asked for the steps of the raisings alone; who took them the schedule says.

use crate::file::Contents;
use crate::machine::Machine;
use crate::numbers::outcomes;

/// Says what is wrong, if anything is: of a raised update the results tell the thread that the schedule names at the step of its
/// raising, and of anything else they tell none.
pub fn check(file: &[u8], contents: &Contents, results: &[u32]) -> Result<(), String> {
    let machine = Machine::after(file, contents);
    let schedule = contents.schedule(file);
    for (o, (outcome, operation)) in outcomes(results).iter().zip(machine.operations()).enumerate() {
        let raised = machine.raising(operation).map(|raising| raising.step);
        let named = raised.map(|step| schedule[step as usize - 1] as u32);
        if outcome.raiser != named {
            return Err(format!(
                "operation {o}, raised at {raised:?} by thread {named:?}, is told as raised by {:?}",
                outcome.raiser
            ));
        }
    }
    Ok(())
}
