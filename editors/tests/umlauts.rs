// Zähler: größer
mod rt;

fn main() {
    let größe = rt::next();
    let mut summe = 0i64;
    // hier
    summe = summe + größe;
    println!("{}", summe);
}
