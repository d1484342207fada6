//! Each line with a mark has a shift by a computed count.

fn operators(x: u64, n: u32, k: u32) -> u64 {
    let a = x << n; // refused
    let a = a >> (n); // refused
    let mut b = x <<n; // refused
    b = b<<n; // refused
    b = b>>n; // refused
    b >>= k + 1; // refused
    b <<= n; // refused
    b<<=n; // refused
    b <<= 1 | n; // refused
    b = x << 4 + 7 * k; // refused
    b = x << (4 + 7 * k); // refused
    b = x << 4 << k; // refused
    b = x << n << 4; // refused
    b = x << 3 | 1 << n; // refused
    b = x << n | 1 << 3; // refused
    b = x << &n; // refused
    b = x << -(n as i32); // refused
    b = x << !n; // refused
    b = x << { n }; // refused
    b = x << if n > 3 { 1 } else { 2 }; // refused
    b
}

fn on_two_lines(x: u64, n: u32) -> u64 {
    let a = x << // refused
        n;
    let b = x
        >> n; // refused
    let c = x >> /* 3 */ // refused
        /* a comment
           of two lines */ n;
    a | b | c
}

fn on_three_lines(x: u64, n: u32) -> u64 {
    x
        << // refused
        n
}

fn operands(x: u64, n: u32, list: [u32; 3], t: (u32, u32)) -> u64 {
    let a = x as u64 >> n; // refused
    let a = u64::from(n) << n | a; // refused
    let a = list[0] as u64 >> list[1] | a; // refused
    let a = 1u64 << t.0 | a; // refused
    let a = (x) >> n | a; // refused
    let a = x.pow(2) >> u8::BITS - n | a; // refused
    let a = 1 << count() | a; // refused
    let a = 1 << WIDTHS[0] | a; // refused
    let a = 1 << WIDTH.min(3) | a; // refused
    let a = 1 << WIDTH() | a; // refused
    let a = 1 << WIDTH!() | a; // refused
    let a = 1 << u8::count | a; // refused
    let a = 1 << size_of::<u8>() | a; // refused
    let a = 1 << 3 + size_of::<u8>() | a; // refused
    let a = 1 << r#type | a; // refused
    let a = 1 << Width | a; // refused
    a << 'n' // refused
}

fn comparisons(a: u64, b: u64, c: u32, d: u64) -> bool {
    let e = a < b >> c; // refused
    let e = e && a < (b >> c); // refused
    let e = e && a < b && b < d >> c; // refused
    let e = e && both(a < b, b < d >> c); // refused
    let e = e && both(A < b, B < d >> c); // refused
    let e = e && both(a < b, b < d >> (c)); // refused
    let e = e && both(A < b, B < d >> (c)); // refused
    let e = e && Level::High < a >> c; // refused
    let e = e && both(Level::High < b, Level::Low < d >> c); // refused
    let e = e && both(Level::High < b, Level::Low < d >> (c)); // refused
    let e = e && both(Level::High < b, Level::Low < d >> *c); // refused
    let e = e && both(Level::High < b, Level::Low < d >> if e { 1 } else { 2 }); // refused
    let e = e && both(a < b, b < d >> { c }); // refused
    let e = e && both(f(a) < b, f(b) < d >> { c }); // refused
    let e = e && a <= b >> c; // refused
    let e = e && a >> c >= b; // refused
    let e = e && a >> c > b; // refused
    let v: Vec<Vec<u8>> = vec![vec![(a >> c) as u8]]; // refused
    let w: Vec<[u8; WIDTH >> c]> = vec![]; // refused
    if a < b { return v.is_empty(); } let y: Vec<Vec<u8>> = vec![]; let z = a >> c; // refused
    e && size_of::<u8>() << c == 1 && y.is_empty() && z == 1 && w.is_empty() // refused
}

fn calls(x: u64, n: u32) -> u64 {
    let a = x.wrapping_shl(n); // refused
    let a = a.wrapping_shr(n + 1); // refused
    let a = a | x.checked_shl(n).unwrap_or(0); // refused
    let (a, _) = a.overflowing_shr(n); // refused
    let a = a.unbounded_shl(n); // refused
    let a = a.rotate_left(n); // refused
    let a = a.rotate_right( // refused
        n,
    );
    let a = a.shl(n); // refused
    let a = a.shr(n); // refused
    let a = Shl::shl(a, n); // refused
    let a = u64::wrapping_shl(a, n); // refused
    let a = [n].into_iter().fold(a, u64::wrapping_shl); // refused
    a.shl_assign(n); // refused
    a
}

macro_rules! shifted {
    ($x:expr, $n:expr) => {
        $x << $n // refused
    };
    ($a:expr, $b:expr, $c:expr, $n:expr) => {
        both($a < $b, $c < $a >> $n) // refused
    };
}

fn quotes<'a>(x: &'a u64, n: u32) -> u64 {
    let a = ['"', '\'', '\\', '\u{3E}'].len() as u64 >> n; /* " */ // refused
    let b = (b'"', b"\"", r"\", r#"""#, br##""#"##, c"\"").0 as u64 >> n; // refused
    /* a /* nested */ comment */ a | b | x >> n // refused
}

fn two_on_a_line(x: u64, n: u32) -> u64 {
    x << n | x >> n // refused
}
