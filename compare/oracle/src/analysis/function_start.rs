use unarm::Ins;

/// The start check is left out of the comparison: the host has accepted the start.
pub fn is_valid_function_start(_: &Ins, _: bool) -> bool {
    true
}
