//! The step machine from Rust: a solve in one call, step by step, with a pause, refused, with a secret, and with a sheet, shown as a table.
//! Prints what examples/expected.txt has.

mod table;

use ola::{kilosteps, Answer, Lent, Machine, Program, LINE_BYTES};

/// Doubles 5, stores it in cell 3, hands it back.
const DOUBLING: [u64; 9] = [
    0x0000000200008804, // MOV 5 to r1
    5,
    0x0020080200009200, // ADD r1, r1 to r1
    0x0010000200008a0a, // MSTORE r1 to cell r0 + 3
    3,
    0x0000000000000917, // TSTORE of one cell from 3
    3,
    1,
    0x000000000000000b, // END
];

/// Compares a guess in r1 with a key in r2, and jumps where they are equal.
const GUESSING: [u64; 4] = [
    0x0020100800009202, // EQ r1, r2 to r3
    0x0080000000000a06, // CJMP on r3 to 0
    0,
    0x000000000000000b, // END
];

/// Adds up 1 and 2, and hands the sum back.
const ADDING_UP: [u64; 13] = [
    0x0020000200008a00, // ADD r1, 1 to r1
    1,
    0x0040080400009200, // ADD r2, r1 to r2
    0x0020000800008a11, // NEQ r1, 2 to r3
    2,
    0x0080000000000a06, // CJMP on r3 to 0
    0,
    0x0010000400008a0a, // MSTORE r2 to cell r0 + 3
    3,
    0x0000000000000917, // TSTORE of one cell from 3
    3,
    1,
    0x000000000000000b, // END
];

fn main() {
    in_one_call();
    step_by_step();
    with_a_pause();
    refused();
    with_a_secret();
    with_a_sheet();
}

fn doubling(budget: u64) -> Program<'static> {
    Program::Words {
        words: &DOUBLING,
        budget,
    }
}

fn in_one_call() {
    let mut lent = Lent::default();
    let answer = lent.run(doubling(100));
    print_answer("in one call", &answer, &lent.machine);
    for value in lent.used_output() {
        println!("output: {value}");
    }
    let buffers = &lent.buffers;
    for place in 0..lent.machine.cell_count as usize {
        let (address, number) = (buffers.addresses[place], buffers.numbers[place]);
        let moment = buffers.moments[place];
        println!("cell {address}: {number}, written at clk {moment}");
    }
    println!("kilosteps: {}", kilosteps(lent.machine.clk));
}

fn step_by_step() {
    let mut lent = Lent::default();
    loop {
        let answer = lent.step(&DOUBLING);
        print_answer("step", &answer, &lent.machine);
        if !answer.is_paused() {
            break;
        }
    }
}

fn with_a_pause() {
    let mut lent = Lent::default();
    let answer = lent.run(doubling(2));
    print_answer("paused", &answer, &lent.machine);
    let answer = lent.run(doubling(100));
    print_answer("gone on", &answer, &lent.machine);
}

fn refused() {
    let lent = Lent::default();
    let text = b"000000000000000b\n0000\n";
    let answer = lent.check(Program::Text { text, budget: 100 });
    print_answer("a short line", &answer, &lent.machine);
    println!("malformed frame: {}", answer.frame);
}

/// The comparison may be made, but no jump may depend on it.
fn with_a_secret() {
    let mut lent = Lent::default();
    lent.machine.registers[1] = 7;
    lent.machine.registers[2] = 12345;
    lent.extras.registers = 1 << 2;
    let program = Program::Words {
        words: &GUESSING,
        budget: 100,
    };
    let answer = lent.guarded_run(program);
    print_answer("with a secret", &answer, &lent.machine);
    println!("marked registers: {:x}", lent.extras.registers);
}

/// A line of the sheet for each step.
fn with_a_sheet() {
    let mut lent = Lent::default();
    let mut sheet = [0; 20 * LINE_BYTES];
    let program = Program::Words {
        words: &ADDING_UP,
        budget: 100,
    };
    let answer = lent.traced_run(program, &mut sheet);
    print_answer("with a sheet", &answer, &lent.machine);
    let used = answer.steps as usize * LINE_BYTES;
    print!("{}", table::of(&sheet[..used]));
}

fn print_answer(what: &str, answer: &Answer, machine: &Machine) {
    let kind = ["outcome", "refused"][answer.refused as usize];
    let (number, steps) = (answer.number, answer.steps);
    let (pc, clk) = (machine.pc, machine.clk);
    println!("{what}: {kind} {number} after {steps} steps, pc {pc}, clk {clk}");
}
