mod rt;

enum Step {
    Add(i64),
    Stop,
}

fn next_step() -> Step {
    let n = rt::next();
    if n == 0 {
        return Step::Stop;
    }
    Step::Add(n)
}

fn main() {
    let mut sum = 0i64;
    while let Step::Add(n) = next_step() {
        if let 13 = n {
            break;
        }
        sum = sum + n;
    }
    println!("{}", sum);
}
