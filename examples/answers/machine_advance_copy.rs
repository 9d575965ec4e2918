// A turnstile: coins and pushes come from the input, 1 and 2, and 0 ends it.
mod rt;

struct Count {
    coins: i64,
    people: i64,
    refused: i64,
}

enum State {
    Locked,
    Unlocked(i64),
}

fn next_state(state: State, event: i64, count: &mut Count) -> State {
    match state {
        State::Locked => {
            if event == 1 {
                count.coins = count.coins + 1;
                State::Unlocked(1)
            } else {
                count.refused = count.refused + 1;
                State::Locked
            }
        }
        State::Unlocked(credit) => {
            if event == 1 {
                count.coins = count.coins + 1;
                State::Unlocked(credit + 1)
            } else {
                count.people = count.people + 1;
                if credit == 1 {
                    State::Locked
                } else {
                    State::Unlocked(credit - 1)
                }
            }
        }
    }
}

fn main() {
    let mut count = Count { coins: 0, people: 0, refused: 0 };
    let mut state = State::Locked;
    let mut event = rt::next();
    while event != 0 {
        state = advance(state, &mut event, &mut count);
    }
    println!("{}", count.coins);
    println!("{}", count.people);
    println!("{}", count.refused);
}

fn advance<'r0, 'r1>(mut state: State, event: &'r0 mut i64, count: &'r1 mut Count) -> State {
    state = next_state(state, *event, &mut *count);
    *event = rt::next();
    state
}
