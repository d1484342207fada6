//! No line has a shift by a computed count: `x << n`.

/// A comment: `x << n`, x >>= k + 1.
#[derive(Clone)]
struct Nested<T: Into<Vec<u8>>>(Vec<Vec<T>>);

const WIDTH: u32 = 1 << (4 * 8);
const ALL: u64 = (1 << COUNT) - 1;

/* x << n
   /* x << n */
   x << n */
fn constants(x: u64) -> u64 {
    let mut a = x << 3 | x >> 0x1F | 1 << 1_0u32 | x<<3;
    a <<= 3;
    a >>= WIDTH - 1;
    a<<=u8::BITS;
    a = x << WIDTH | x >> u8::BITS | x << (WIDTH * 8) | x << WIDTH * 8 | x << crate::wide::WIDTH;
    a = x << 3 as u32 | x << WIDTH as usize | x << (WIDTH as usize + 1) | x << Self::WIDTH;
    a = a << // the operator at the end
        3;
    a = a
        >> WIDTH;
    a = a.wrapping_shl(3) | a.rotate_left(WIDTH) | u64::wrapping_shl(n, 3) | a.shr(8 * WIDTH,);
    let Some(b) = a >> 3 else { return n };
    if a >> 3 == n { a } else { n }
}

fn generics() -> Vec<Vec<u8>> {
    let a: Vec<Vec<u8>> = Vec::<Vec<u8>>::new();
    let b: Vec<Vec<Vec<u8>>> = vec![];
    let c: HashMap<u8, Vec<u8>> = HashMap::new();
    let d: HashMap<u8, Vec<u8>>= HashMap::new();
    let e = Option::<Option<Vec<u8>>>::None;
    let f = n.collect::<Vec<_>>().into_iter().collect::<Vec<Vec<_>>>();
    let g = n.collect::<Result<Vec<_>, Box<dyn Error + 'static>>>()?;
    let h = |x: Vec<Vec<u8>>| x;
    let i = n as *const Vec<Vec<u8>>;
    let j: [Vec<Vec<u8>>; 3] = n;
    let k: (Vec<Vec<u8>>, &'static Vec<&'static Vec<u8>>) = n;
    let l: Box<dyn Fn(&[u8]) -> Result<Vec<u8>, Box<dyn Error>>> = n;
    let m: Vec<(u8, Vec<u8>)> = n;
    let o: Vec<[Vec<u8>; 3]> = n;
    let p: Option<Either<{ 3 + 4 }, Array<3>>> = n;
    let q = <Vec<Vec<u8>> as IntoIterator>::into_iter(n);
    let r = <<Vec<u8> as IntoIterator>::Item as Default>::default();
    let s: Vec<<Vec<u8> as IntoIterator>::Item> = n;
    if a < b {} let t: Vec<Vec<u8>> = n;
    let u: HashMap<
        u8,
        Vec<Vec<u8>>> = n;
    let v: Foo<impl Iterator<Item = Vec<u8>>> = n;
    let w = matches!(n, Some(x) if x < 3) && n > 4;
    if a < b && c > d { n } else { n }
}

fn bounds<'a, T: Into<Vec<u8>>>(x: T) -> impl Iterator<Item = Vec<u8>> + 'a
where
    T: From<Option<Vec<u8>>>,
    for<'b> Vec<Vec<&'b u8>>: Sized,
{
    match x {
        Some(n) if n < 3 => n,
        n => n,
    }
}

fn bound<T: Into<u8>>(x: T) {}

impl<T: Into<u8>> Nested<T> {}

impl<T: Into<Vec<u8>>> Iterator for Nested<T> {
    type Item = Vec<Vec<u8>>;
}

impl<T: From<Vec<u8>>> From<Vec<Vec<u8>>> for Nested<T> {}

impl Shl<u32> for Nested<u8> {
    fn shl(self, n: u32) -> Nested<u8> {
        self
    }
}

macro_rules! types {
    ($t:ty, $imp:ident, $name:ident) => {
        type Output = <$t as $imp<$t>>::Output;
        fn $name<T: Into<Vec<$t>>>(x: T) {}
        fn $name<T: Into<$t>>(x: T) {}
    };
}

fn quotes<'a>(n: &'a str) -> [&'a str; 4] {
    let text = "x << n \" x << n";
    let lines = "x << n
        x << n";
    let raw = r#"x << n " x << n"#;
    let bytes = (b"x << n", br"x << n\", c"x << n", '"', b'"', '\'', '<', '>');
    // x << n " x << n
    println!("{n:>>8} {:<<8}", "x << n");
    [text, lines, raw, n]
}
