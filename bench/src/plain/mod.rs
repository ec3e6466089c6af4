//! The monitor's algorithm in safe Rust, to measure beside it: the same passes over the same buffers, written as one would
//! write them without proofs.

mod knowledge;
mod message;
mod policy;
mod rows;

use zankezurt::State;

/// A refusal's number and place.
pub type Refusal = (u8, usize);

/// Takes one message into the lent state; gives how many verdicts stand.
pub fn receive(encoded: &[u8], message: &[u8], state: &mut State<'_>) -> Result<usize, Refusal> {
    let policy = policy::decode(encoded)?;
    if !policy.fits(state) {
        return Err((5, 0));
    }
    let State { numbers, facts, valuation, verdicts, origin, extent } = state;
    if !is_origin(encoded, origin, **extent) {
        return Err((12, 0));
    }
    if !knowledge::is_sound(&policy, numbers, facts) {
        return Err((6, 0));
    }
    let message = message::decode(message, &policy)?;
    if !knowledge::admits(&policy, numbers, facts, &message) {
        return Err((9, 0));
    }
    knowledge::store(&policy, numbers, facts, &message);
    let mut row = [0; 1024];
    let points = &mut row[..policy.minutes];
    knowledge::time_points(numbers, points);
    rows::evaluate(&policy, points, facts, valuation);
    Ok(rows::conclude(&policy, points, valuation, verdicts))
}

/// Is this what opening the policy writes: its bytes, then zeros, and its length?
fn is_origin(policy: &[u8], origin: &[u8], extent: u16) -> bool {
    let (bytes, rest) = origin.split_at(policy.len());
    usize::from(extent) == policy.len() && bytes == policy && rest.iter().all(|&byte| byte == 0)
}
