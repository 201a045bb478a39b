//! A lowering whose rules are compiled by `isle`, and the machine that it lowers to.

extern crate alloc;

/// A register, by its number.
#[derive(Clone, Copy, Debug, PartialEq, Eq)]
pub struct Reg(u8);

/// What `isle` made of the rules. It takes `Reg` from the module around it.
#[allow(dead_code, unused, non_camel_case_types, non_snake_case)]
mod rules {
    include!(concat!(env!("OUT_DIR"), "/lower.rs"));
}

use rules::{Context, Op, constructor_lower};

/// The instructions so far, and the register that the next one writes.
#[derive(Default)]
struct Machine {
    instructions: Vec<String>,
    next: u8,
}

impl Machine {
    /// Adds an instruction, and gives the register that it writes.
    fn push(&mut self, operation: &str, operands: String) -> Reg {
        let register = Reg(self.next);
        self.next += 1;
        self.instructions.push(format!("{operation} r{}, {operands}", register.0));
        register
    }
}

/// What the rules ask of the machine: the text's trait has a function for each external term.
impl Context for Machine {
    fn imm12(&mut self, value: u32) -> Option<u16> {
        u16::try_from(value).ok().filter(|value| *value < 1 << 12)
    }

    fn load(&mut self, value: u32) -> Reg {
        self.push("load", value.to_string())
    }

    fn add(&mut self, left: Reg, right: Reg) -> Reg {
        self.push("add", format!("r{}, r{}", left.0, right.0))
    }

    fn add_imm(&mut self, left: Reg, value: u16) -> Reg {
        self.push("addi", format!("r{}, {value}", left.0))
    }
}

/// Lowers a constant, and its sums with one that fits into an instruction and one that doesn't.
fn lowered() -> Vec<String> {
    let mut machine = Machine::default();
    let left = constructor_lower(&mut machine, &Op::Const { value: 7 });
    constructor_lower(&mut machine, &Op::AddConst { left, value: 100 });
    constructor_lower(&mut machine, &Op::AddConst { left, value: 5000 });
    machine.instructions
}

fn main() {
    for instruction in lowered() {
        println!("{instruction}");
    }
}

#[cfg(test)]
mod tests {
    #[test]
    fn a_constant_of_twelve_bits_stands_in_the_sum() {
        assert_eq!(super::lowered(), ["load r0, 7", "addi r1, r0, 100", "load r2, 5000", "add r3, r0, r2"]);
    }
}
