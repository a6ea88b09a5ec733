//! include/chimneyrye.h: C lays its structs out as the archive does, and a loop
//! in C runs.

mod host;

use card_loop::layout::{
    Acknowledges, Advance, Answer, Bus, Byte, Configuration, Detector, Errors, Group, GroupState,
    Kept, Last, Limit, Module, Pair, Programming, Sample, Scalars, Setup, Shown, SinceStart,
    Speed, State, Switch, TimedState, Window,
};

/// What a C program of this folder prints.
fn printed(name: &str) -> String {
    host::printed(
        &format!("peer/card/tests/c/{name}.c"),
        &["-std=c11", "-pedantic"],
    )
}

#[test]
fn c_lays_the_structs_out_as_rust_does() {
    let ours: String = [
        ("detector", Detector::places()),
        ("scalars", Scalars::places()),
        ("programmed_setup", Setup::places()),
        ("pair", Pair::places()),
        ("programmed_group", Group::places()),
        ("switch", Switch::places()),
        ("advance", Advance::places()),
        ("programmed_limit", Limit::places()),
        ("programming", Programming::places()),
        ("errors", Errors::places()),
        ("acknowledges", Acknowledges::places()),
        ("configuration", Configuration::places()),
        ("last", Last::places()),
        ("window", Window::places()),
        ("speed", Speed::places()),
        ("group_state", GroupState::places()),
        ("timed_state", TimedState::places()),
        ("since_start", SinceStart::places()),
        ("shown", Shown::places()),
        ("bus", Bus::places()),
        ("kept", Kept::places()),
        ("state", State::places()),
        ("module", Module::places()),
        ("sample", Sample::places()),
        ("answer", Answer::places()),
        ("byte", Byte::places()),
    ]
    .iter()
    .map(|(name, places)| format!("{name} {places}\n"))
    .collect();
    assert_eq!(printed("places"), ours);
}

/// The comments of card.c say why each line is what it is.
#[test]
fn a_loop_in_c_steps_its_module_where_it_sits() {
    assert_eq!(
        printed("card"),
        "power 0\nsetup 0\ngroup 0\nlimit 0\n\
         step 0 position 0 real 0001 tests 1\n\
         step 0 position 100 real 0000 tests 1\n\
         step 0 position 200 real 0000 tests 1\n\
         step 11 position 200 real 0000 tests 0\n\
         fault 1\n\
         read 80 e0 01\n\
         line 0 write 0 line 1 write 0 line 0\n\
         read 13 write 14\n"
    );
}
