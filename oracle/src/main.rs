//! The oracle's commands.

#[cfg(not(reference))]
fn main() {
    println!("{}", oracle::SKIPPED);
}

#[cfg(reference)]
fn main() {
    let args: Vec<String> = std::env::args().skip(1).collect();
    let args: Vec<&str> = args.iter().map(String::as_str).collect();
    match args[..] {
        ["lists", directory] => write_lists(directory),
        ["counts", directory] => print_counts(directory),
        ["compare", calls, seed] => compare(number(calls), number(seed)),
        ["bench"] => oracle::bench::print(),
        ["differences"] => hold_page(&oracle::page::RUST),
        #[cfg(netlib)]
        ["netlib"] => hold_page(&oracle::page::NETLIB),
        #[cfg(netlib)]
        ["netlib-examples"] => netlib_examples(),
        #[cfg(not(netlib))]
        ["netlib" | "netlib-examples"] => println!("{}", oracle::NO_NETLIB),
        _ => {
            eprintln!(
                "usage: oracle lists DIR | counts DIR | compare CALLS SEED | bench | differences | netlib | netlib-examples"
            );
            std::process::exit(2);
        }
    }
}

/// Writes every file of the list.
#[cfg(reference)]
fn write_lists(directory: &str) {
    for (name, bytes) in oracle::list::files() {
        std::fs::write(format!("{directory}/{name}.bin"), bytes).expect("the list can be written");
    }
}

/// Prints the list's counts by routine, kind and answer.
#[cfg(reference)]
fn print_counts(directory: &str) {
    println!("answers:              0     1     2     3     4     5");
    let read = |name: &str| std::fs::read(format!("{directory}/{name}.bin")).expect("the list can be read");
    let names = oracle::list::FAMILIES.iter().map(|family| family.name).chain([oracle::list::CHECK]);
    for name in names {
        print!("{}", oracle::list::counts(name, &read(name)));
    }
    println!("answers:              0     1     2     6     7");
    print!("{}", oracle::card::list::counts(&read(oracle::card::list::NAME)));
}

#[cfg(reference)]
fn number(text: &str) -> u64 {
    text.parse().expect("a whole number")
}

/// Compares the C interface, where it is linked, and looks for each planted fault.
#[cfg(reference)]
fn compare(calls: u64, seed: u64) {
    use oracle::generate::{every_small_view, many};
    use oracle::{answer, capi, compare, faults};
    let linked = capi::linked() > 0;
    let candidate = if linked { capi::answer } else { |call: &mut oracle::call::Call| Some(answer::answer(call)) };
    match linked {
        true => println!("the C interface, {} of 45 functions linked", capi::linked()),
        false => println!("the C interface is not linked; the oracle against itself"),
    }
    let mut bad = false;
    for (name, report) in [
        ("generated calls", compare::compare(candidate, many(calls, seed))),
        ("every small view", compare::compare(candidate, every_small_view())),
    ] {
        print!("{name}:\n{}", compare::show(&report));
        bad |= report.differences() > 0;
    }
    println!("planted faults:");
    for fault in &faults::FAULTS {
        let found = compare::first_difference(fault.answer, many(calls, seed));
        bad |= found.is_none();
        match found {
            Some((n, _)) => println!("  found at call {n}: {}", fault.name),
            None => println!("  not found in {calls} calls: {}", fault.name),
        }
    }
    bad |= !compare_cards(calls / 10, seed);
    if bad {
        std::process::exit(1);
    }
}

/// Compares the C interface's card functions, where they are linked, and looks for each planted fault. Is all well?
#[cfg(reference)]
fn compare_cards(calls: u64, seed: u64) -> bool {
    use oracle::card::{self, CardCall, capi, compare, faults, generate::many, points};
    let linked = capi::linked() > 0;
    let candidate = if linked { capi::answer } else { |call: &mut CardCall| Some(card::answer(call)) };
    match linked {
        true => println!("the C interface, {} of 3 card functions linked", capi::linked()),
        false => println!("the C interface's card functions are not linked; the judge against itself"),
    }
    let named = || points::points().into_iter().chain([points::largest()]).map(|point| point.before);
    let mut well = true;
    for (name, report) in [
        ("generated card calls", compare::compare(candidate, many(calls, seed))),
        ("named card calls", compare::compare(candidate, named())),
    ] {
        print!("{name}:\n{}", compare::show(&report));
        well &= report.differ == 0;
    }
    println!("planted faults of card calls:");
    for fault in &faults::FAULTS {
        let found = compare::first_difference(|call| faults::answer(fault.slip, call), many(calls, seed));
        well &= found.is_some();
        match found {
            Some((n, _)) => println!("  found at call {n}: {}", fault.name),
            None => println!("  not found in {calls} calls: {}", fault.name),
        }
    }
    let wraps = &faults::K_WRAPS;
    let found =
        compare::first_difference(|call| faults::answer(wraps.slip, call), named().skip(points::points().len()));
    println!("  {} at the 34 MB file: {}", if found.is_some() { "found" } else { "not found" }, wraps.name);
    well && found.is_some()
}

/// Prints what the judge gives on each call of docs/DIFFERENCES.md, and holds the page to it.
#[cfg(reference)]
fn hold_page(judge: &oracle::page::Judge) {
    for (name, call) in oracle::differences::calls() {
        println!("{name} | {} | {}", oracle::page::input(&call), (judge.run)(call));
    }
    let wrong = oracle::page::wrong(&oracle::page::text(), judge);
    for fault in &wrong {
        eprintln!("docs/DIFFERENCES.md: {fault}");
    }
    if !wrong.is_empty() {
        std::process::exit(1);
    }
}

/// Compares the Rust and, where it is linked, the C interface with Netlib, and looks for two planted faults.
#[cfg(all(reference, netlib))]
fn netlib_examples() {
    use oracle::call::{Call, Kind};
    use oracle::compare::{Report, against, show};
    use oracle::{answer, capi, examples};
    let with = |run| against(examples::answer_of_netlib, Kind::equal, run, examples::calls());
    let the_rust: fn(&mut Call) -> Option<u8> = |call| Some(answer::answer(call));
    let mut bad = false;
    for (name, run) in [("the Rust", the_rust), ("the C interface", capi::answer)] {
        let report: Report = with(run);
        print!("{name} against Netlib's:\n{}", show(&report));
        bad |= report.differences() > 0;
    }
    if capi::linked() < 45 {
        println!("  {} of the 45 functions of the C interface are linked", capi::linked());
        bad |= capi::linked() > 0;
    }
    println!("planted in the Rust's:");
    for (name, run) in [
        ("one number read is changed before the call", examples::changed_before as fn(&mut Call) -> Option<u8>),
        ("one number of the target is changed after the call", examples::changed_after),
    ] {
        let report = with(run);
        let kinds = report.differ.iter().flatten().filter(|&&count| count > 0).count();
        println!(
            "  {name}: found in {} of {} calls, {kinds} of 45 routines and kinds",
            report.differences(),
            report.total()
        );
        bad |= kinds < 45;
    }
    if bad {
        std::process::exit(1);
    }
}
