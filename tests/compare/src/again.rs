//! One input once more, from the file that a difference was put into.

use crate::counts::Counts;
use crate::group::Group;
use crate::saved::Saved;
use crate::{fault, groups, program};
use std::path::Path;

/// The line of an input that passes, or why the input of this file does not.
pub fn compared_again(path: &Path) -> Result<String, String> {
    let unread = |error| format!("FAILED: nothing was compared: {}: {error}", path.display());
    let Saved { group, number, input } = Saved::read(path).map_err(unread)?;
    let group = group_named(&group).map_err(unread)?;
    fault::begin(group.case(number));
    match group.compared(&input, &mut Counts::default()) {
        Ok(()) => Ok(format!("passed: {}: the input of {}", group.name, path.display())),
        Err(difference) => Err(format!(
            "{difference}\n  input: {input}\nFAILED: {}: the input of {} differs",
            group.name,
            path.display()
        )),
    }
}

/// The group of this name, if what it compares is there.
fn group_named(name: &str) -> Result<Group, String> {
    let on_archives = groups::on_archives().into_iter().find(|group| group.name == name);
    let on_program = groups::on_program().into_iter().find(|group| group.name == name);
    match (on_archives, on_program) {
        (Some(group), _) => Ok(group),
        (None, Some(_)) if !program::is_built() => Err(program::MISSING.to_string()),
        (None, Some(group)) => Ok(group),
        (None, None) => Err(format!("there is no group '{name}'")),
    }
}
