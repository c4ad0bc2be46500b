//! The small cases of the rules, the printed job, branches, rules that only go forward, and the host's words.

use crate::cell::{decode, encode, with_immediate, with_registers, Decoded, Operands};
use crate::check_rule;
use crate::generate_forward::forward_cell;
use crate::half::ex;
use crate::job::{load, record, runjob, save, words_record, Refused};
use crate::line;
use crate::machine::{Answer, Machine, Runner, Words, NO_WORDS, PC};
use crate::profile::{check, reason, Fault, Reason};
use crate::random::Random;
use crate::{generate, table, trial};

const JOB: [u8; 26] = [0x0E, 0, 0, 0, 1, 0, 0, 0, 7, 0, 1, 5, 2, 0, 1, 0x25, 0xFF, 0xFF, 0xFF, 4, 0, 0, 0, 0, 4, 0];

const WORDS: Words = [2_025, 11, 16, 0xFFFF_FFFF, 0x8000_0000];

/// One step at PC 0 of a machine whose registers 1 to 3 are given.
fn one_step(cell: u32, registers: [u32; 3], flags: u32) -> (Answer, Machine) {
    let mut machine = Machine::fresh();
    machine.registers[1..4].copy_from_slice(&registers);
    machine.flags = flags;
    let mut runner = Runner::new(machine, vec![cell, 0, 0], vec![0; 8]);
    let answer = runner.step();
    (answer, runner.machine)
}

/// The value that `R1 = R2 op R3` leaves in R1, and the flags.
fn on_registers(opcode: u8, x: u32, y: u32, flags: u32) -> (u32, u32) {
    let (_, machine) = one_step(with_registers(opcode, 1, 2, 3), [0, x, y], flags);
    (machine.registers[1], machine.flags)
}

fn on_immediate(opcode: u8, x: u32, imm: u16) -> (u32, u32) {
    let (_, machine) = one_step(with_immediate(opcode, 1, imm), [x, 0, 0], 0);
    (machine.registers[1], machine.flags)
}

#[test]
fn case_1_add() {
    assert_eq!(on_registers(16, 0xFFFF_FFFF, 1, 0), (0, 5));
}

#[test]
fn case_2_adc() {
    assert_eq!(on_registers(17, 0xFFFF_FFFF, 0xFFFF_FFFF, 1), (0xFFFF_FFFF, 5));
}

#[test]
fn case_3_sub() {
    assert_eq!(on_registers(18, 0, 1, 0), (0xFFFF_FFFF, 6));
    assert_eq!(on_registers(18, 5, 5, 0), (0, 0));
}

#[test]
fn case_4_sdiv() {
    assert_eq!(on_registers(22, 0xFFFF_FFF9, 2, 0).0, 0xFFFF_FFFD);
}

#[test]
fn case_5_lshi() {
    assert_eq!(on_immediate(46, 0x1234, 65_535), (0, 4));
}

#[test]
fn case_6_srsh() {
    assert_eq!(on_registers(31, 0x8000_0000, 31, 0), (0xFFFF_FFFF, 0));
    assert_eq!(on_registers(31, 0x8000_0000, 32, 0), (0xFFFF_FFFF, 8));
}

#[test]
fn case_7_split() {
    let (_, machine) = one_step(with_registers(54, 1, 2, 3), [0x8000_FFFF, 0, 0], 0);
    assert_eq!(machine.registers[1..4], [0x8000_FFFF, 0xFFFF_FFFF, 0xFFFF_8000]);
}

#[test]
fn case_8_ex() {
    assert_eq!(ex(0xB5B9), 0xBEB7_2000);
    assert_eq!(on_immediate(7, 0, 0xB5B9).0, 0xBEB7_2000);
}

/// Numbers that IEEE 754 has in both formats: 0, the least, where subnormals end, 1, 2, a third, the greatest, infinity.
#[test]
fn halves_that_are_known() {
    let known = [
        (0x0000, 0x0000_0000),
        (0x0001, 0x3380_0000),
        (0x0003, 0x3440_0000),
        (0x03FF, 0x387F_C000),
        (0x0400, 0x3880_0000),
        (0x3555, 0x3EAA_A000),
        (0x3C00, 0x3F80_0000),
        (0x4000, 0x4000_0000),
        (0x7BFF, 0x477F_E000),
        (0x7C00, 0x7F80_0000),
    ];
    for (half, single) in known {
        assert_eq!((ex(half), ex(half + 0x8000)), (single, single + 0x8000_0000));
    }
    for half in [0x7C01, 0x7DFF, 0x7E00, 0x7FFF, 0xFC01, 0xFDFF, 0xFE00, 0xFFFF] {
        assert_eq!(ex(half), 0x7FC0_0000);
    }
}

/// From 0 on each half is a step above the one before it, and steps double with the exponent.
#[test]
fn halves_step_by_step() {
    let value = |half: u16| f64::from(f32::from_bits(ex(half)));
    let mut step = 1.0 / 16_777_216.0;
    for half in 0..0x7BFF {
        if half >= 0x0800 && half % 0x0400 == 0 {
            step *= 2.0;
        }
        assert_eq!(value(half + 1) - value(half), step);
        assert_eq!(value(half + 0x8000), -value(half));
    }
}

#[test]
fn case_9_comparisons() {
    assert_eq!(on_immediate(49, 0xFFFF_FF00, 17).0, 1);
    assert_eq!(on_immediate(50, 0xFFFF_FF00, 17).0, 0);
}

#[test]
fn case_10_branch_below_zero() {
    let refused = one_step(with_immediate(121, 1, 65_534), [0, 0, 0], 0);
    assert_eq!(refused, (Answer::stop(13, 0), Machine::fresh()));
}

#[test]
fn case_11_branch_to_itself() {
    let (answer, machine) = one_step(with_immediate(121, 1, 65_535), [0, 0, 0], 0);
    assert_eq!((answer.stop, answer.count, machine.registers[PC], machine.flags), (0, 1, 0, 0));
}

#[test]
fn case_12_reserved() {
    let (answer, machine) = one_step(0x0200_0000, [0, 0, 0], 0);
    assert_eq!((answer.stop, machine.registers[PC], machine.flags), (0, 1, 128));
}

#[test]
fn the_printed_job() {
    assert_eq!(runjob(&JOB).0, "exit 1 steps 3 pc 4294901763 flags 256\nR1 5\n");
}

#[test]
fn jobs_without_end() {
    assert_eq!(runjob(b"").0, "refused 41 at 0\n");
    assert_eq!(runjob(&[0; 32_768]).0, "refused 42 at 0\n");
    assert_eq!(runjob(&[0; 32_769]).0, "refused 50 at 32768\n");
    let mut long = JOB.to_vec();
    long.resize(32_768, 0);
    assert_eq!(runjob(&long).0, "refused 47 at 26\n");
    long.push(0);
    assert_eq!(runjob(&long).0, "refused 50 at 32768\n");
}

#[test]
fn a_saved_job_loads_again() {
    for words in [NO_WORDS, WORDS] {
        let mut cells = [9; 40];
        let machine = load(&JOB, words, &mut cells).unwrap();
        let mut room = [0xAA; 60];
        assert_eq!(save(&machine, &cells, &mut room), Ok(52));
        let job = [&JOB[..20], &words_record(words), &JOB[20..]].concat();
        assert_eq!((&room[..52], &room[52..]), (&job[..], &[0xAA; 8][..]));
        for host in [NO_WORDS, WORDS, [1; 5]] {
            let mut again = [8; 40];
            assert_eq!(load(&job, host, &mut again), Ok(machine.clone()));
            assert_eq!(again, cells);
        }
    }
}

#[test]
fn saves_that_are_refused() {
    let machine = Machine { words: WORDS, ..Machine::fresh() };
    let mut room = [0xAA; 32];
    assert_eq!(save(&machine, &[0; 40], &mut room[..31]), Err(48));
    assert_eq!(save(&machine, &[], &mut room[..31]), Err(12));
    assert_eq!(save(&machine, &[0; 16_385], &mut room), Err(12));
    let odd = Machine { mode: 4, ..machine };
    assert_eq!(save(&odd, &[0; 40], &mut room[..31]), Err(10));
    assert_eq!(room, [0xAA; 32]);
}

#[test]
fn every_cell_and_line() {
    let mut legal = 0;
    for opcode in 0..=255u8 {
        let cell = with_immediate(opcode, 200, 0xFF07);
        let text = line::text(cell);
        assert!(text.len() <= 24);
        assert_eq!(line::read(text.as_bytes()), Ok(cell));
        match decode(cell) {
            Decoded::Legal(found, operands) => {
                legal += 1;
                assert_eq!((found, encode(opcode, operands)), (opcode, Ok(cell)));
            }
            Decoded::Reserved(found) => {
                assert_eq!(found, cell);
                assert_eq!(encode(opcode, Operands::Immediate { n: 0, imm: 0 }), Err(21));
            }
        }
    }
    assert_eq!(legal, 76);
    assert_eq!(line::text(0x1001_0203), "ADD R1, R2, R3\n");
    assert_eq!(line::text(0x2305_FFFD), "ADDI R5, #65533\n");
    assert_eq!(line::text(0x0200_0000), "CELL 33554432\n");
}

#[test]
fn back_of_five_at_depth_three() {
    let program = [with_immediate(35, 255, 0), with_registers(1, 1, 2, 2), with_registers(107, 1, 255, 3)].to_vec();
    let mut machine = Machine::fresh();
    machine.registers[2] = 4;
    let before = (machine.clone(), [program.clone(), vec![7, 8, 0]].concat());
    let mut runner = Runner::new(machine, before.1.clone(), vec![0; 100]);
    assert_eq!(runner.run(3).count, 3);
    assert_ne!(runner.cells, before.1);
    let answer = runner.back(5);
    assert_eq!((answer.stop, answer.count), (8, 3));
    assert_eq!((runner.machine, runner.cells), before);
}

/// The cell of a line without its LF.
fn cell(text: &str) -> u32 {
    line::read(format!("{text}\n").as_bytes()).unwrap()
}

fn fresh_at(pc: u32) -> Machine {
    let mut machine = Machine::fresh();
    machine.registers[PC] = pc;
    machine
}

/// R255 reads as the cell behind the branch, which is never 0.
#[test]
fn branches_to_either_side_of_cell_0() {
    for pc in [0, 1, 2, 16_382, 16_383] {
        for target in [-1, 0, 1] {
            for (n, value) in [(1, 0), (1, 1), (1, 0x8000_0000), (255, pc)] {
                let mut before = fresh_at(pc);
                before.registers[n as usize] = value;
                let mut runner = Runner::new(before.clone(), vec![0; 16_384], vec![0; 8]);
                runner.cells[pc as usize] = with_immediate(121, n, (target - pc as i32 - 1) as u16);
                let answer = runner.step();
                let taken = n == 1 && value == 0;
                if taken && target < 0 {
                    assert_eq!(answer, Answer::stop(13, 0));
                    assert_eq!((runner.machine, runner.journal), (before, vec![0; 8]));
                } else {
                    assert_eq!(answer, Answer::stop(0, 1));
                    assert_eq!(runner.machine.registers[PC], if taken { target as u32 } else { pc + 1 });
                }
            }
        }
    }
}

/// An imm above 32,767 goes back, from the cell behind the branch, by what is missing to 65,536.
#[test]
fn every_branch_that_is_taken() {
    for pc in [0, 1, 16_383] {
        let mut runner = Runner::new(fresh_at(pc), vec![0; 16_384], vec![0; 8]);
        for imm in 0..=65_535 {
            runner.cells[pc as usize] = with_immediate(121, 0, imm as u16);
            if imm > 32_767 && 65_536 - imm > pc + 1 {
                assert_eq!(runner.step(), Answer::stop(13, 0));
            } else {
                assert_eq!(runner.step(), Answer::stop(0, 1));
                assert_eq!(runner.back(1), Answer::stop(0, 1));
            }
            assert_eq!(runner.machine, fresh_at(pc));
        }
    }
}

#[test]
fn what_comes_before_a_jump_below_cell_0() {
    let answer = |pc: u32, depth: u32, budget: u64| {
        let machine = Machine { depth, ..fresh_at(pc) };
        Runner::new(machine, vec![cell("BZ R0, #32768"); 16_384], vec![0; 8]).run(budget)
    };
    for pc in [0, 16_383] {
        assert_eq!(answer(pc, 0, 1), Answer::stop(13, 0));
        assert_eq!(answer(pc, 0, 0), Answer::stop(0, 0));
        assert_eq!(answer(pc, 1, 1), Answer::stop(7, 0));
    }
    for pc in [16_384, 32_766, 32_767, 32_768, 0xFFFE_FFFF] {
        assert_eq!(answer(pc, 0, 1), Answer::stop(4, 0));
    }
    for pc in [0xFFFF_0000, 0xFFFF_FFFF] {
        assert_eq!(answer(pc, 0, 1), Answer::stop(1, 0));
    }
}

/// The steps before it stand and can be undone; a profile run finds it in the rule.
#[test]
fn a_jump_below_cell_0_after_two_steps() {
    let before = Machine { flags: 256, mask: 511, ..Machine::fresh() };
    let cells = ["ADDI R1, #3", "LDST R1, R1, R0", "BZ R0, #65532", "CPSWP R0, R0, R0"].map(cell).to_vec();
    let mut runner = Runner::new(before.clone(), cells, vec![0; 80]);
    assert_eq!(runner.run(2), Answer::stop(0, 2));
    let after = (runner.machine.clone(), runner.cells.clone(), runner.journal.clone());
    for budget in [1, 2, u64::MAX] {
        assert_eq!(runner.run(budget), Answer::stop(13, 0));
    }
    assert_eq!(runner.profile_run(3, 1), Answer { place: 2, ..Answer::stop(60, 0) });
    assert_eq!((runner.machine.clone(), runner.cells.clone(), runner.journal.clone()), after);
    assert_eq!(runner.back(9), Answer::stop(8, 2));
    assert_eq!(runner.machine, before);
    assert_eq!(runner.run(3), Answer::stop(13, 2));
    assert_eq!((runner.machine, runner.cells, runner.journal), after);
}

#[test]
fn a_job_that_jumps_below_cell_0() {
    let job = job_of(&["ADDI R1, #5", "BZ R0, #65533"]);
    assert_eq!(runjob(&job).0, "exit 13 steps 1 pc 1 flags 0\nR1 5\n");
}

#[test]
fn cells_of_a_rule_that_only_goes_forward() {
    for allowed in [
        "CPSWP R0, R255, R0",
        "LDST R1, R255, R255",
        "SPLIT R255, R1, R2",
        "FSPLIT R255, R1, R2",
        "ADD R1, R255, R255",
        "BZ R255, #0",
        "BZ R1, #32767",
        "LDUI R255, #65535",
        "LDUI R254, #7",
    ] {
        assert_eq!(reason(cell(allowed)), None, "{allowed}");
    }
    for (refused, why) in [
        ("CELL 33554432", Reason::Reserved),
        ("CELL 4294967295", Reason::Reserved),
        ("FADD R1, R2, R3", Reason::Float),
        ("IF2I R255, #0", Reason::Float),
        ("INT R255, #0", Reason::Int),
        ("BZ R1, #32768", Reason::Back),
        ("BZ R1, #65535", Reason::Back),
        ("CPSWP R255, R1, R2", Reason::Target),
        ("CPSWP R1, R2, R255", Reason::Target),
        ("SPLIT R1, R255, R2", Reason::Target),
        ("FSPLIT R1, R2, R255", Reason::Target),
        ("LDST R255, R0, R0", Reason::Target),
        ("LDUI R255, #65534", Reason::Target),
        ("LDLI R255, #65535", Reason::Target),
        ("ADDI R255, #0", Reason::Target),
    ] {
        assert_eq!(reason(cell(refused)), Some(why), "{refused}");
    }
}

/// Of 76 legal opcodes 27 and INT are never allowed. R255 as n is fine for BZ, SPLIT and FSPLIT.
#[test]
fn opcodes_of_a_rule_that_only_goes_forward() {
    let count = |n: u8, wanted: Option<Reason>| {
        (0..=255).filter(|opcode| reason(with_registers(*opcode, n, 1, 2)) == wanted).count()
    };
    for n in [3, 255] {
        assert_eq!(count(n, Some(Reason::Reserved)), 180);
        assert_eq!(count(n, Some(Reason::Float)), 27);
        assert_eq!(count(n, Some(Reason::Int)), 1);
        assert_eq!(count(n, Some(Reason::Back)), 0);
    }
    assert_eq!((count(3, None), count(3, Some(Reason::Target))), (48, 0));
    assert_eq!((count(255, None), count(255, Some(Reason::Target))), (3, 45));
}

#[test]
fn the_first_bad_cell_of_a_rule() {
    let cells = [0, cell("INT R1, #2"), 0, cell("BZ R1, #65533"), 0];
    assert_eq!(check(0, &cells), Err(Fault::Length));
    assert_eq!(check(1, &cells), Ok(()));
    for length in 2..=5 {
        assert_eq!(check(length, &cells), Err(Fault::Cell(1, Reason::Int)));
        assert_eq!(check(length - 1, &cells[1..]), Err(Fault::Cell(0, Reason::Int)));
    }
    assert_eq!(check(3, &cells[2..]), Err(Fault::Cell(1, Reason::Back)));
    for length in [6, 65_537, u32::MAX] {
        assert_eq!(check(length, &cells), Err(Fault::Length));
    }
    assert_eq!(check(1, &[]), Err(Fault::Length));
}

/// The branch leaves out cell 2, so the rule of four cells ends after three steps.
#[test]
fn a_profile_run_to_the_end() {
    let rule = ["LDLIZ R1, #5", "BZ R0, #1", "LDLIZ R1, #6", "LDUI R255, #65535"].map(cell);
    let mut runner = Runner::new(Machine::fresh(), rule.to_vec(), vec![0; 80]);
    assert_eq!(runner.profile_run(4, 2), Answer::stop(0, 2));
    assert_eq!(runner.profile_run(2, 9), Answer::stop(62, 0));
    assert_eq!(runner.profile_run(4, u64::MAX), Answer::stop(1, 1));
    assert_eq!((runner.machine.registers[PC], runner.machine.registers[1]), (0xFFFF_0004, 5));
    assert_eq!((runner.machine.flags, runner.machine.depth), (256, 3));
    assert_eq!(runner.profile_run(4, 1), Answer::stop(1, 0));
    assert_eq!(runner.back(9), Answer::stop(8, 3));
    assert_eq!(runner.machine, Machine::fresh());
}

#[test]
fn a_profile_run_out_of_its_rule() {
    let cells = vec![cell("ADDI R1, #1"); 3];
    for (m, length) in [(3, 3), (3, 2), (1, 1)] {
        let mut runner = Runner::new(Machine::fresh(), cells[..m].to_vec(), vec![0; 8 * length]);
        assert_eq!(runner.profile_run(length as u32, u64::MAX), Answer::stop(62, length as u64));
        assert_eq!(runner.profile_run(length as u32, 0), Answer::stop(0, 0));
    }
    let mut full = Runner::new(Machine::fresh(), cells, vec![0; 15]);
    assert_eq!(full.profile_run(3, 5), Answer::stop(7, 1));
}

/// 12, 10, 11 and then 60, which even a budget of 0 does not keep back.
#[test]
fn what_a_profile_run_tests_first() {
    let stop = |m: usize, mode: u32, depth: u32, length: u32| {
        let machine = Machine { mode, depth, ..Machine::fresh() };
        let mut runner = Runner::new(machine, vec![cell("CELL 33554432"); m], vec![0; 16]);
        runner.profile_run(length, 0).stop
    };
    assert_eq!([stop(0, 4, 3, 0), stop(16_385, 4, 3, 1)], [12, 12]);
    assert_eq!([stop(5, 4, 3, 0), stop(5, 4, 3, 1)], [10, 10]);
    assert_eq!([stop(5, 3, 3, 0), stop(5, 3, 3, 1)], [11, 11]);
    assert_eq!([stop(5, 3, 2, 0), stop(5, 3, 2, 1), stop(5, 3, 2, 6)], [60, 60, 60]);
}

/// A rule of three among six cells that stores by R2 and loads by R3; a refused step changes nothing.
#[test]
fn stores_of_a_profile_run() {
    for (store, load, stop, flags) in [
        (0, 0, 0, 0),
        (0, 1, 0, 0),
        (1, 0, 61, 0),
        (2, 2, 61, 0),
        (3, 0, 0, 0),
        (5, 2, 0, 0),
        (6, 0, 5, 0),
        (1, 6, 5, 0),
        (2, 0xFFFE_FFFF, 5, 0),
        (1, 0xFFFF_0003, 61, 0),
        (2, 0xFFFF_FFFF, 61, 0),
        (3, 0xFFFF_0003, 0, 128),
        (0xFFFF_0000, 1, 0, 128),
        (0xFFFF_0001, 1, 0, 0),
    ] {
        let mut before = Machine::fresh();
        before.registers[2..4].copy_from_slice(&[store, load]);
        let cells = vec![cell("LDST R1, R2, R3"), 0, 0, 7, 8, 9];
        let mut runner = Runner::new(before.clone(), cells.clone(), vec![0; 8]);
        let answer = runner.profile_run(3, 1);
        assert_eq!(answer, Answer::stop(stop, (stop == 0) as u64), "{store} {load}");
        assert_eq!(runner.machine.flags, flags);
        if stop != 0 {
            assert_eq!((runner.machine, runner.cells, runner.journal), (before, cells, vec![0; 8]));
        }
    }
}

/// A plain step writes INT into cell 1 of the rule; with a step back it is gone.
#[test]
fn each_profile_run_checks_again() {
    let mut machine = Machine::fresh();
    machine.registers[1..3].copy_from_slice(&[cell("INT R1, #2"), 1]);
    let mut runner = Runner::new(machine, vec![cell("LDST R1, R2, R0"), 0, 0], vec![0; 80]);
    assert_eq!(runner.profile_run(3, 1), Answer::stop(61, 0));
    assert_eq!(runner.step(), Answer::stop(0, 1));
    assert_eq!(runner.profile_run(3, 1), Answer { place: 1, ..Answer::stop(60, 0) });
    assert_eq!(runner.profile_run(1, 1), Answer::stop(62, 0));
    assert_eq!(runner.back(1), Answer::stop(0, 1));
    assert_eq!(runner.profile_run(3, 1), Answer::stop(61, 0));
    assert_eq!(runner.profile_run(1, 9), Answer::stop(62, 1));
    assert_eq!(runner.cells[1], cell("INT R1, #2"));
}

/// Whatever the rule is, all profile runs of it together do no more steps than it has cells.
#[test]
fn no_more_steps_than_cells() {
    let mut random = Random::new(9);
    for _ in 0..2_000 {
        let length = 1 + random.below(20) as u32;
        let mut cells: Vec<u32> = (0..length).map(|_| forward_cell(&mut random)).collect();
        cells.resize(30, 0);
        let mut machine = Machine::fresh();
        machine.registers[..PC].iter_mut().for_each(|register| *register = random.word());
        let start = random.below(length as u64);
        machine.registers[PC] = start as u32;
        let mut runner = Runner::new(machine, cells, vec![0; 8 * 100]);
        let steps: u64 = (0..30).map(|_| runner.profile_run(length, 3).count).sum();
        assert!(steps <= length as u64 - start);
    }
}

fn job_of(lines: &[&str]) -> Vec<u8> {
    let cells: Vec<u8> = lines.iter().flat_map(|line| cell(line).to_le_bytes()).collect();
    [record(1, &[&[0, 0], &cells[..]].concat()), record(4, &[])].concat()
}

#[test]
fn what_check_rule_prints() {
    let good = job_of(&["LDLIZ R1, #7", "SUBI R1, #2", "LDUI R255, #65535"]);
    assert_eq!(check_rule::text(None, &good), "forward only: at most 3 steps\n");
    assert_eq!(check_rule::text(Some(""), &good), "forward only: at most 3 steps\n");
    assert_eq!(check_rule::text(Some("1"), &good), "forward only: at most 1 steps\n");
    assert_eq!(check_rule::text(Some("4096"), &good), "forward only: at most 4096 steps\n");
    for length in ["0", "4097", "03", "+3", "-3", "3 ", "x", "4294967299", "99999999999999999999"] {
        assert_eq!(check_rule::text(Some(length), &good), "refused 60: L must be 1 to 4096\n", "{length}");
    }
    for (line, sentence) in [
        ("CELL 33554432", "the opcode is reserved"),
        ("FADD R1, R2, R3", "opcodes 80 to 106 are for floats"),
        ("INT R1, #65535", "INT would stop the rule"),
        ("BZ R1, #65533", "the branch goes back"),
        ("LDST R255, R0, R0", "R255 is a target, which it may be in LDUI R255, #65535 alone"),
    ] {
        let job = job_of(&["ADDI R1, #1", "ADDI R1, #1", "ADDI R1, #1", line]);
        let wanted = format!("cell 3: {line}\nnot allowed: {sentence}\n");
        assert_eq!(check_rule::text(None, &job), wanted);
        assert_eq!(check_rule::text(Some("4"), &job), wanted);
        assert_eq!(check_rule::text(Some("3"), &job), "forward only: at most 3 steps\n");
    }
}

#[test]
fn jobs_that_check_rule_refuses() {
    let no_rule = "refused 60: the first record does not begin at cell 0\n";
    let later = [record(1, &[1, 0, 0, 0, 0, 0]), record(4, &[])].concat();
    for job in [record(4, &[]), [record(2, &[0, 0, 0, 0, 0]), record(4, &[])].concat(), later] {
        assert_eq!(check_rule::text(None, &job), no_rule);
        assert_eq!(check_rule::text(Some("2"), &job), "forward only: at most 2 steps\n");
    }
    for length in [None, Some("0")] {
        assert_eq!(check_rule::text(length, b""), "refused 41 at 0\n");
        assert_eq!(check_rule::text(length, &[0; 32_769]), "refused 50 at 32768\n");
        assert_eq!(check_rule::text(length, &[&JOB[..], &[0]].concat()), "refused 47 at 26\n");
    }
}

/// A rule of two cells whose second is INT: checked, and run after a profile run was refused.
#[test]
fn trials_of_rules_that_only_go_forward() {
    let settings = [1, 0, 1, 0, 0, 0, 9, 0, 1, 0x7A];
    let mut tally = table::Tally::new();
    for (length, text) in [(0, "length\n"), (1, "forward only\n"), (2, "cell 1 int\n"), (3, "length\n")] {
        let payload = [&[length, 0, 0, 0, 2, 0, 0, 0], &settings[..]].concat();
        assert_eq!(trial::answer(trial::CHECK, &payload, &mut tally).unwrap(), text);
    }
    let head = [&[2, 0, 0, 0, 16, 0, 0, 0], &[0; 8][..], &[3, 0, 0, 0], &[0; 24]].concat();
    let calls = [&[2, 0, 3, 1, 0, 0, 0, 0, 0, 0, 0, 2, 0, 0, 0][..], &[0, 0, 0, 0, 0, 0, 0, 0, 0]].concat();
    let payload = [&head[..], &[0, 0], &settings[..], &[0, 0], &calls[..]].concat();
    let text = trial::answer(trial::CALLS, &payload, &mut tally).unwrap();
    let lines: Vec<&str> = text.lines().collect();
    assert_eq!(lines.len(), 2);
    assert!(lines[0].starts_with("stop 60 value 0 imm 0 place 1 count 0 pc 0 flags 0 mask 0 mode 3 depth 0 words "));
    assert!(lines[1].starts_with("stop 0 value 0 imm 0 place 0 count 1 pc 1 flags 0 mask 0 mode 3 depth 1 words "));
}

/// LDST at PC 0 of a machine with the words above; R1 to R3 are the value, the store's pointer and the load's.
fn transfer(n: u8, registers: [u32; 3]) -> Runner {
    let mut machine = Machine { words: WORDS, flags: 1, mask: 2, ..Machine::fresh() };
    machine.registers[1..4].copy_from_slice(&registers);
    let cells = vec![with_registers(1, n, 2, 3), 7, 8, 9];
    Runner::new(machine, cells, vec![0; 16])
}

#[test]
fn loads_of_words() {
    for (address, value) in (0xFFFF_0300..).zip(WORDS) {
        let mut runner = transfer(1, [5, 0, address]);
        let before = runner.machine.clone();
        assert_eq!(runner.step(), Answer::stop(0, 1));
        assert_eq!(runner.journal[..8], [0, 1 + 512 * 2 + (3 << 18), 1, 5, 0, 0, 0, 1]);
        let mut after = Machine { depth: 1, ..before.clone() };
        (after.registers[1], after.registers[PC]) = (value, 1);
        assert_eq!(runner.machine, after);
        assert_eq!(runner.back(1), Answer::stop(0, 1));
        assert_eq!(runner.machine, before);
    }
}

/// A word of 0xFFFF0000 or more ends the run, another one is the next PC.
#[test]
fn loads_of_words_into_pc() {
    for (address, value) in (0xFFFF_0300..).zip(WORDS) {
        let mut runner = transfer(255, [5, 0, address]);
        let ends = value >= 0xFFFF_0000;
        assert_eq!(runner.step(), Answer::stop(ends as u32, 1));
        assert_eq!((runner.machine.registers[PC], runner.machine.flags), (value, if ends { 257 } else { 1 }));
    }
}

/// Legal is what gives a value; the mask held 2 and the mode 3, and cell 3 held 9.
#[test]
fn transfers_beside_words() {
    for (value, store, load, loaded) in [
        (5, 0, 0xFFFF_0002, Some(3)),
        (5, 0, 0xFFFF_0003, None),
        (5, 0, 0xFFFF_02FF, None),
        (5, 0, 0xFFFF_0305, None),
        (5, 0, 0xFFFF_FFFF, None),
        (5, 3, 0xFFFF_0300, Some(2_025)),
        (3, 0xFFFF_0002, 0xFFFF_0301, Some(11)),
        (4, 0xFFFF_0002, 0xFFFF_0301, None),
        (511, 0xFFFF_0001, 0xFFFF_0303, Some(0xFFFF_FFFF)),
        (512, 0xFFFF_0001, 0xFFFF_0303, None),
        (5, 0xFFFF_0000, 0xFFFF_0304, None),
        (5, 0xFFFF_0300, 3, None),
        (2_025, 0xFFFF_0300, 0xFFFF_0300, None),
        (0, 0xFFFF_0304, 0, None),
        (5, 3, 0xFFFF_0305, None),
    ] {
        let mut runner = transfer(1, [value, store, load]);
        assert_eq!(runner.step(), Answer::stop(0, 1));
        let machine = &runner.machine;
        assert_eq!(
            (machine.registers[1], machine.flags & 128),
            (loaded.unwrap_or(value), if loaded.is_none() { 128 } else { 0 })
        );
        let done = loaded.is_some();
        assert_eq!(runner.cells[3], if done && store == 3 { value } else { 9 });
        assert_eq!(machine.mask, if done && store == 0xFFFF_0001 { value } else { 2 });
        assert_eq!((machine.mode, machine.words), (3, WORDS));
    }
    for (store, load) in
        [(4, 0xFFFF_0300), (0xFFFF_0300, 4), (0xFFFE_FFFF, 0xFFFF_0305), (0xFFFF_0305, 0xFFFE_0300)]
    {
        assert_eq!(transfer(1, [5, store, load]).step(), Answer::stop(5, 0));
    }
}

fn loaded_words(records: &[Vec<u8>], host: Words) -> Result<Words, Refused> {
    load(&records.concat(), host, &mut [0; 4]).map(|machine| machine.words)
}

#[test]
fn jobs_with_words() {
    let (words, end) = (words_record(WORDS), record(4, &[]));
    assert_eq!(words[..14], [20, 0, 0, 0, 5, 0, 0xE9, 7, 0, 0, 11, 0, 0, 0]);
    assert_eq!(loaded_words(&[end.clone()], [1, 2, 3, 4, 5]), Ok([1, 2, 3, 4, 5]));
    assert_eq!(loaded_words(&[words.clone(), end.clone()], [1, 2, 3, 4, 5]), Ok(WORDS));
    assert_eq!(loaded_words(&[words_record(NO_WORDS), end.clone()], WORDS), Ok(NO_WORDS));
    let settings = record(3, &[0, 0, 0, 0, 3]);
    assert_eq!(loaded_words(&[settings.clone(), words.clone(), end.clone()], NO_WORDS), Ok(WORDS));
    assert_eq!(loaded_words(&[words.clone(), words.clone(), end.clone()], NO_WORDS), Err((46, 26)));
    for record in [record(1, &[0; 6]), record(2, &[0; 5]), settings] {
        assert_eq!(loaded_words(&[words.clone(), record, end.clone()], NO_WORDS), Err((46, 26)));
    }
    assert_eq!(loaded_words(&[end.clone(), words.clone()], NO_WORDS), Err((47, 6)));
    assert_eq!(loaded_words(&[words.clone()], NO_WORDS), Err((41, 26)));
    assert_eq!(loaded_words(&[words[..25].to_vec()], NO_WORDS), Err((44, 0)));
    for length in [0, 4, 16, 19, 21, 24] {
        assert_eq!(loaded_words(&[record(5, &vec![0; length]), end.clone()], NO_WORDS), Err((43, 0)));
    }
    for kind in [0, 6, 0x0105] {
        assert_eq!(loaded_words(&[record(kind, &[0; 20]), end.clone()], NO_WORDS), Err((42, 0)));
    }
}

/// A host that gives zeros, and a job that decides over them.
#[test]
fn words_that_runjob_and_check_rule_read() {
    let rule = ["LDLIZ R2, #772", "LDUI R2, #65535", "LDST R1, R0, R2", "LDUI R255, #65535"];
    let job = job_of(&rule);
    let ended = "exit 1 steps 4 pc 4294901764 flags 256\n";
    assert_eq!(runjob(&job).0, format!("{ended}R2 4294902532\n"));
    let split = job.len() - 6;
    let job = [&job[..split], &words_record([1, 2, 3, 4, 5]), &job[split..]].concat();
    assert_eq!(runjob(&job).0, format!("{ended}R1 5\nR2 4294902532\n"));
    assert_eq!(check_rule::text(None, &job), "forward only: at most 4 steps\n");
    assert_eq!(check_rule::text(None, &[&words_record(WORDS)[..], &job].concat()), "refused 46 at 26\n");
}

/// Two lists that differ in one word, or in which of their places a word stands.
#[test]
fn digests_differ() {
    let only = |place: usize, word: u32| {
        let mut list = [0; 256];
        list[place] = word;
        trial::digest_of(&list)
    };
    let all_differ = |mut digests: Vec<u64>| {
        let count = digests.len();
        digests.sort();
        digests.dedup();
        digests.len() == count
    };
    for word in [1, 5, 0x8000_0000, 0xFFFF_FFFF] {
        assert!(all_differ((0..256).map(|place| only(place, word)).collect()));
    }
    assert!(all_differ(
        [0, 1, 2, 3, 4, 5, 0x8000_0000, 0xFFFF_FFFB, 0xFFFF_FFFF].map(|word| only(7, word)).to_vec()
    ));
    assert_ne!(trial::digest_of(&[3, 9, 7]), trial::digest_of(&[3, 7, 9]));
    assert_ne!(trial::digest_of(&[0; 3]), trial::digest_of(&[0; 4]));
}

/// With any seed: the trials can be read and answered, and nothing is missing from the table.
#[test]
fn generated_trials() {
    for seed in 0..3 {
        let file = generate::trials(seed, 6_500);
        let mut tally = table::Tally::new();
        let trials = trial::split(&file).unwrap();
        assert_eq!(trials.len(), 6_500);
        for (kind, payload) in trials {
            trial::answer(kind, payload, &mut tally).unwrap();
        }
        assert_eq!(tally.text().1, Vec::<String>::new());
    }
}
