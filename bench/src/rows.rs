//! Tables of the three receivers.

/// Three columns: library, plain, second.
fn three(values: [f64; 3], width: usize, digits: usize) -> String {
    let column = |v| format!("{v:>width$.digits$}");
    values.map(column).concat()
}

/// Names of three columns.
fn names(width: usize) -> String {
    let column = |name| format!("{name:>width$}");
    ["library", "plain", "second"].map(column).concat()
}

/// A title, and names over the columns.
pub fn heading(title: &str) {
    let [groups, columns] = names_over();
    println!("\n{title}\n{groups}\n{columns}");
}

/// The same for lines that tell of bytes.
pub fn heading_of_bytes(title: &str) {
    let [groups, columns] = names_over();
    println!(
        "\n{title}\n{groups}{:>30}\n{columns}{}",
        "ns per byte",
        names(10)
    );
}

fn names_over() -> [String; 2] {
    [
        format!(
            "{:<38}{:>27}{:>18}{:>30}",
            "", "ns per message", "library to", "messages per second"
        ),
        format!(
            "{:<38}{}{:>9}{:>9}{}",
            "",
            names(9),
            "plain",
            "second",
            names(10)
        ),
    ]
}

/// A line of a table, from nanoseconds per message.
pub fn row(name: &str, times: [f64; 3]) {
    println!("{}", text(name, times));
}

/// A line, and nanoseconds per byte of messages of this length.
pub fn row_of_bytes(name: &str, times: [f64; 3], len: usize) {
    let per_byte = times.map(|t| t / len as f64);
    println!("{}{}", text(name, times), three(per_byte, 10, 2));
}

fn text(name: &str, times: [f64; 3]) -> String {
    let [library, plain, second] = times;
    format!(
        "{name:<38}{}{:>9.2}{:>9.2}{}",
        three(times, 9, 0),
        library / plain,
        library / second,
        three(times.map(|t| 1e9 / t), 10, 0)
    )
}

/// How many times as long each receiver takes as in another line.
pub fn row_of_ratios(name: &str, times: [f64; 3], others: [f64; 3]) {
    let ratios = [0, 1, 2].map(|n| times[n] / others[n]);
    println!("{name:<38}{}", three(ratios, 9, 2));
}

/// The line of docs/DECISIONS.md, "Speed by machine": for each load the ratio of library to plain and the library's microseconds, then how
/// many times as long an update takes where two keys have one hash.
pub fn document(machine: &str, levels: &[[f64; 3]], [apart, same]: [[f64; 3]; 2]) {
    let cell = |[library, plain, _]: [f64; 3]| {
        format!("{:.2} ({:.1} µs)", library / plain, library / 1000.0)
    };
    let mut cells: Vec<_> = levels.iter().copied().map(cell).collect();
    cells.push(cell(apart));
    cells.push(format!("{:.1}", same[0] / apart[0]));
    println!("\nThe line for \"Speed by machine\" of docs/DECISIONS.md, after a run with nothing beside it");
    println!("| {machine} | {} |", cells.join(" | "));
}
