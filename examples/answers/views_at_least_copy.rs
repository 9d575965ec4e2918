// Views of numbers that somebody else owns: the larger one of two, without a copy.
mod rt;

struct Pair {
    left: i64,
    right: i64,
}

#[derive(Clone, Copy)]
struct View<'p> {
    left: &'p i64,
    right: &'p i64,
}

fn view(pair: &Pair) -> View {
    View { left: &pair.left, right: &pair.right }
}

fn larger<'v>(of: View<'v>, least: &'v i64) -> &'v i64 {
    let chosen = match at_least(of, least) {
        Exit_at_least::Next(out_0) => out_0,
        Exit_at_least::Return(out_0) => return out_0,
    };
    chosen
}

enum Exit_at_least<'r0, 'r1> {
    Next(&'r0 i64),
    Return(&'r1 i64),
}

fn at_least<'r0: 'r2, 'r1: 'r3, 'r2, 'r3>(of: View<'r0>, least: &'r1 i64) -> Exit_at_least<'r2, 'r3> {
    let chosen = if *of.left < *of.right { of.right } else { of.left };
    if *chosen < *least {
        return Exit_at_least::Return(least);
    }
    Exit_at_least::Next(chosen)
}

fn main() {
    let mut pair = Pair { left: rt::next(), right: rt::next() };
    let least = 10i64;
    let seen = larger(view(&pair), &least);
    let best = *seen;
    pair.left = best;
    println!("{}", pair.left + pair.right);
}
