// Views of numbers that somebody else owns: the larger one of two, without a copy.
mod rt;

struct Pair {
    left: i64,
    right: i64,
}

#[derive(Clone, Copy)]
struct View<'p> {
    left: &'p i64,
    right: &'p i64,
}

fn view(pair: &Pair) -> View {
    View { left: &pair.left, right: &pair.right }
}

fn larger<'v>(of: View<'v>, least: &'v i64) -> &'v i64 {
    let chosen = if *of.left < *of.right { of.right } else { of.left };
    if *chosen < *least {
        return least;
    }
    chosen
}

fn main() {
    let mut pair = Pair { left: rt::next(), right: rt::next() };
    let least = 10i64;
    let seen = larger(view(&pair), &least);
    let best = *seen;
    pair.left = best;
    println!("{}", pair.left + pair.right);
}
