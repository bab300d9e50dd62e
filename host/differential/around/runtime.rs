//! A stand-in for what the validation of outcomes asks the runtime: the states in which the branch for a wrong state is taken. It tells `WrongStateUnreachable` and nothing
//! else, and that error is not compared.

use crate::{EntityDefinition, OperationDefinition};

pub(crate) fn wrong_states(definition: &EntityDefinition, operation: &OperationDefinition) -> Vec<String> {
    let moves = operation.outcomes.iter().filter_map(|outcome| outcome.effect.move_sources());
    let starts: Vec<&String> = moves.flat_map(|from| from.iter()).collect();
    let states = definition.lifecycle.states.iter();
    states.filter(|state| !starts.contains(state)).cloned().collect()
}
