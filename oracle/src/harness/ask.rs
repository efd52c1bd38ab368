//! One request in, one answer line out.
use super::table;
use super::words::{Args, Bad};
use std::panic::{AssertUnwindSafe, catch_unwind};

/// The answer to one line. `panic TEXT` where the Rust panics and nothing says that it may.
pub fn answer(line: &str, out: &mut String) {
    let start = out.len();
    let done = catch_unwind(AssertUnwindSafe(|| run(line, out)));
    match done {
        Ok(Ok(())) => {}
        Ok(Err(Bad)) => {
            out.truncate(start);
            out.push_str("BAD REQUEST");
        }
        Err(panic) => {
            let text = panic.downcast_ref::<String>().map(String::as_str);
            let text = text.or_else(|| panic.downcast_ref::<&str>().copied());
            if out.len() > start {
                out.push(' ');
            }
            *out += &format!("panic {}", text.unwrap_or_default().replace('\n', " "));
        }
    }
}

fn run(line: &str, out: &mut String) -> Result<(), Bad> {
    let mut args = Args::new(line);
    let op = table::by_name(args.word()?).ok_or(Bad)?;
    (op.run)(&mut args, out)?;
    if args.more() { Err(Bad) } else { Ok(()) }
}
