// A small bank: commands come from the input.
mod rt;

struct Account {
    id: i64,
    balance: i64,
}

struct Bank {
    first: Account,
    second: Account,
    fee: i64,
}

enum Command {
    Deposit(i64, i64),
    Withdraw(i64, i64),
    Show(i64),
    Quit,
}

// One command: a kind, an account and an amount.
fn read_command() -> Command {
    let kind = rt::next();
    if kind == 0 {
        return Command::Quit;
    }
    let id = rt::next();
    match kind {
        1 => Command::Deposit(id, rt::next()),
        2 => Command::Withdraw(id, rt::next()),
        _ => Command::Show(id),
    }
}

fn pick(bank: &mut Bank, id: i64) -> &mut Account {
    if id == bank.first.id {
        return &mut bank.first;
    }
    &mut bank.second
}

fn serve(bank: &mut Bank, limit: i64) -> i64 {
    let mut served = 0;
    loop {
        let command = read_command();
        /* The limit is tested
           before the command is done. */
        match refuse(served, limit) {
            Exit_refuse::Next => {}
            Exit_refuse::Return(out_0) => return out_0,
        };
        match command {
            Command::Deposit(id, amount) => {
                let account = pick(bank, id);
                account.balance = account.balance + amount;
            }
            Command::Withdraw(id, amount) => {
                let fee = bank.fee;
                let account = pick(bank, id);
                // No account goes below zero.
                if account.balance < amount + fee {
                    println!("{}", -1);
                    continue;
                }
                account.balance = account.balance - amount - fee;
            }
            Command::Show(id) => {
                let account = pick(bank, id);
                println!("{}", account.balance);
            }
            Command::Quit => break,
        }
        served = served + 1;
    }
    served
}

enum Exit_refuse {
    Next,
    Return(i64),
}

fn refuse(served: i64, limit: i64) -> Exit_refuse {
    if served == limit {
        return Exit_refuse::Return(served);
    }
    Exit_refuse::Next
}

fn main() {
    let mut bank = Bank {
        first: Account { id: 1, balance: 100 },
        second: Account { id: 2, balance: 50 },
        fee: 1,
    };
    let done = serve(&mut bank, 10);
    println!("{}", done);
}
