fn main() {
    let a = 2i64;
    let b = 3i64;
    let c = times(a, b);
    println!("{}", c);
}

fn times(a: i64, b: i64) -> i64 {
    let c = a * b;
    c
}
