//! Refuses each of the library's calls for memory in turn that a step makes. The step then gives 90, and everything is as it was; or it is
//! done as ever. What was refused is done when it is called again. A twin, which is never refused anything, tells what is as ever.

use std::ffi::c_long;
use std::fmt::Debug;

use mmdb::Result;

extern "C" {
    fn allocations_refuse(met: c_long, refused: c_long);
    fn allocations_refused() -> c_long;
}

/// What is done with a database and what belongs to it, or what is told of it.
pub type Step<Of, Given> = fn(&mut Of) -> Result<Given>;

/// How many calls for memory a step makes, each of which is refused in a run of its own. A run tells whether it had such a call.
pub fn refused_calls(mut is_refused: impl FnMut(c_long) -> Result<bool>) -> Result<c_long> {
    let mut met = 0;
    while is_refused(met)? {
        met += 1;
    }
    Ok(met)
}

/// Does a step of both, of the first with one call for memory refused behind so many that are met. Tells whether there was such a call.
pub fn is_refused<Of, Given, State>(
    step: Step<Of, Given>,
    state: Step<Of, State>,
    (one, twin): (&mut Of, &mut Of),
    met: c_long,
) -> Result<bool>
where
    Given: PartialEq + Debug,
    State: PartialEq + Debug,
{
    let (mut given, refused) = done_without(step, one, met);
    if let Err(why) = given {
        assert_eq!((why.number(), why.text(), refused), (Some(90), Some("no memory"), true));
        assert_eq!(state(one)?, state(twin)?);
        given = step(one);
    }
    assert_eq!(given?, step(twin)?);
    assert_eq!(state(one)?, state(twin)?);
    Ok(refused)
}

fn done_without<Of, Given>(step: Step<Of, Given>, of: &mut Of, met: c_long) -> (Result<Given>, bool) {
    // SAFETY: they set and read numbers of their own, and there is one thread.
    unsafe {
        allocations_refuse(met, 1);
        let given = step(of);
        let refused = allocations_refused() > 0;
        allocations_refuse(0, 0);
        (given, refused)
    }
}
