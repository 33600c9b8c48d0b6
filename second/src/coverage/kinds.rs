//! The kinds of steps that are done, each told from the states around it and the list of its accesses.

use super::Coverage;
use crate::bus::{purpose_of, Purpose, ACCESS, BANK, MOST_ACCESSES};
use crate::cases::Case;
use crate::record::{Part, Record, D, I};
use crate::report::{kinds, part_index};

kinds! {
    Fresh "289" "fresh state",
    Chained "289" "state left by the step before",
    Res "289" "RES",
    ResEdge "29" "RES, and an NMI edge lost",
    ResWrap "289" "RES, stack reads wrap",
    Nmi "29" "NMI",
    NmiOverIrq "29" "NMI, and IRQ asserted",
    NmiHeld "29" "NMI held, no new edge",
    NmiReleased "29" "NMI released",
    Irq "289" "IRQ",
    IrqMasked "289" "IRQ masked by I",
    EntryWrap "289" "IRQ or NMI, pushes wrap",
    EntryRegister "89" "RES, IRQ or NMI, PC at a register",
    EntryUndefined "289" "RES, IRQ or NMI, opcode undefined",
    MaskedUndefined "289" "refusal 6, lines not 0",
    DecimalAdc "289" "decimal ADC",
    DecimalSbc "289" "decimal SBC",
    BadDigit "289" "decimal, a digit over 9",
    BranchNot "289" "branch not taken",
    BranchTaken "289" "branch taken",
    BranchCrossing "289" "branch to another page",
    LoadWithin "289" "indexed load in a page",
    LoadCrossing "289" "indexed load crossing",
    StoreWithin "289" "indexed store in a page",
    StoreCrossing "289" "indexed store crossing",
    ChangeWithin "289" "a,X shift/INC/DEC in a page",
    ChangeCrossing "289" "a,X shift/INC/DEC crossing",
    SumWrap "289" "address sum past FFFF",
    ZeroWrap "289" "z,X or z,Y wraps",
    PointerWrap "289" "zero-page pointer at FF",
    JumpPageEnd "289" "JMP (a) at a page's end",
    JumpWrap "289" "JMP (FFFF)",
    PcWrapInside "289" "PC wraps in an instruction",
    PcWrapAfter "289" "PC wraps after an instruction",
    CodePage0 "289" "code in page 0",
    CodePage1 "289" "code in page 1",
    CodeRegister "89" "opcode fetched from a register",
    PushWrap "289" "stack wraps on a push",
    PullWrap "289" "stack wraps on a pull",
    JsrFirst "289" "JSR, first push on its operand",
    JsrSecond "289" "JSR, second push on its operand",
    JsrPage0 "8" "the same, code in page 0",
    Protected "28" "protected write",
    ProtectedStack "28" "protected write in page 1",
    BelowProtected "28" "write just below protection",
    Write0 "89" "register write at 0000",
    Write1 "89" "register write at 0001",
    ChangeRegister "89" "shift/INC/DEC of a register",
    CellRead "8" "cell under a register read",
    CellWritten "8" "cell under a register written",
    Port "8" "port read, pins and outputs mixed",
    HighBits "9" "register write over 0F",
    ExecutionBank "9" "execution bank changed",
    IndirectBank "9" "indirect bank changed",
    LoadBanked "9" "B1 in another bank",
    StoreBanked "9" "91 in another bank",
    BankedRegister "9" "B1 or 91 at 0000 or 0001",
    Modulo "9" "bank not below k",
    Banks1 "9" "k = 1",
    Banks2 "9" "k = 2",
    Banks4 "9" "k = 4",
    Banks8 "9" "k = 8",
    Banks16 "9" "k = 16",
    CountWrap "289" "cycle count past 2^32",
    Opcode "289" "opcode read",
    Operand "289" "operand read",
    WastedRead "289" "wasted read",
    WastedWrite "289" "wasted write",
    Pointer "289" "pointer read",
    DataRead "289" "data read",
    DataWrite "289" "data write",
    StackRead "289" "stack read",
    StackWrite "289" "stack write",
    Vector "289" "vector read",
}

#[derive(Clone, Copy, Default)]
struct Access {
    address: u16,
    value: u8,
    written: bool,
    purpose: Option<Purpose>,
}

/// Counts what a step that was done shows of.
pub fn note(
    coverage: &mut Coverage,
    case: &Case,
    before: Record,
    after: Record,
    accesses: &[u8],
    count: usize,
) {
    let mut list = [Access::default(); MOST_ACCESSES];
    for (access, bytes) in list.iter_mut().zip(accesses.chunks(ACCESS)).take(count) {
        access.address = u16::from_le_bytes([bytes[0], bytes[1]]);
        access.value = bytes[3];
        access.written = bytes[4] == 1;
        access.purpose = purpose_of(bytes);
    }
    let mut step = Step {
        coverage,
        case,
        before,
        after,
        list: &list[..count],
    };
    step.note();
}

struct Step<'a> {
    coverage: &'a mut Coverage,
    case: &'a Case,
    before: Record,
    after: Record,
    list: &'a [Access],
}

impl Step<'_> {
    fn saw(&mut self, kind: Kind) {
        self.coverage.kinds[kind as usize][part_index(self.before.part)] += 1;
    }

    fn saw_if(&mut self, condition: bool, kind: Kind) {
        if condition {
            self.saw(kind);
        }
    }

    fn note(&mut self) {
        let before = self.before;
        let [res, nmi, irq] = [1, 2, 4].map(|bit| self.case.lines & bit != 0);
        let edge = nmi && before.nmi_level == 0;
        self.saw(if self.case.is_fresh {
            Kind::Fresh
        } else {
            Kind::Chained
        });
        self.saw_if(self.after.cycles < before.cycles, Kind::CountWrap);
        self.saw_if(nmi && !edge && !res, Kind::NmiHeld);
        self.saw_if(!nmi && before.nmi_level == 1, Kind::NmiReleased);
        self.note_purposes();
        self.note_writes();
        if before.part == Part::Mos6509 {
            self.note_banks();
        }
        let is_irq = irq && before.p & I == 0;
        if res {
            self.saw(Kind::Res);
            self.saw_if(edge, Kind::ResEdge);
            self.saw_if(before.s < 2, Kind::ResWrap);
        } else if edge {
            self.saw(Kind::Nmi);
            self.saw_if(is_irq, Kind::NmiOverIrq);
        } else if is_irq {
            self.saw(Kind::Irq);
        } else {
            self.saw_if(irq, Kind::IrqMasked);
            self.note_instruction();
            return;
        }
        self.saw_if(!res && before.s < 2, Kind::EntryWrap);
        let has_registers = before.part != Part::Mos6502;
        self.saw_if(has_registers && before.pc < 2, Kind::EntryRegister);
        let at_pc = usize::from(self.list[0].value);
        self.saw_if(!self.coverage.is_defined[at_pc], Kind::EntryUndefined);
    }

    fn note_purposes(&mut self) {
        for access in self.list {
            let kind = match (access.purpose, access.written) {
                (Some(Purpose::Opcode), false) => Kind::Opcode,
                (Some(Purpose::Operand), false) => Kind::Operand,
                (Some(Purpose::Wasted), false) => Kind::WastedRead,
                (Some(Purpose::Wasted), true) => Kind::WastedWrite,
                (Some(Purpose::Pointer), false) => Kind::Pointer,
                (Some(Purpose::Data), false) => Kind::DataRead,
                (Some(Purpose::Data), true) => Kind::DataWrite,
                (Some(Purpose::Stack), false) => Kind::StackRead,
                (Some(Purpose::Stack), true) => Kind::StackWrite,
                (Some(Purpose::Vector), false) => Kind::Vector,
                _ => continue,
            };
            self.saw(kind);
        }
    }

    fn note_writes(&mut self) {
        let first_protected = 256 - u16::from(self.before.protected_pages);
        let has_registers = self.before.part != Part::Mos6502;
        let is_6508 = self.before.part == Part::Mos6508;
        let direction = self.before.registers[0];
        let is_mixed = direction != 0 && direction != 0xFF && self.case.pins != 0;
        let mut register_writes = 0;
        for access in self.list {
            let page = access.address >> 8;
            let is_cell = is_6508 && matches!(access.address, 0x0100 | 0x0101);
            if access.written {
                self.saw_if(page >= first_protected, Kind::Protected);
                self.saw_if(page == 1 && first_protected == 1, Kind::ProtectedStack);
                self.saw_if(
                    page + 1 == first_protected && page < 0xFF,
                    Kind::BelowProtected,
                );
                self.saw_if(has_registers && access.address == 0, Kind::Write0);
                self.saw_if(has_registers && access.address == 1, Kind::Write1);
                self.saw_if(access.address < 2 && access.value > 0x0F, Kind::HighBits);
                self.saw_if(is_cell && page < first_protected, Kind::CellWritten);
                register_writes += u8::from(has_registers && access.address < 2);
            } else {
                self.saw_if(is_cell, Kind::CellRead);
                self.saw_if(is_6508 && access.address == 1 && is_mixed, Kind::Port);
            }
        }
        self.saw_if(register_writes == 2, Kind::ChangeRegister);
    }

    fn note_banks(&mut self) {
        let banks = self.case.image_len / BANK;
        let [before, after] = [self.before.registers, self.after.registers];
        let is_res = self.case.lines & 1 != 0;
        self.saw_if(!is_res && before[0] != after[0], Kind::ExecutionBank);
        self.saw_if(!is_res && before[1] != after[1], Kind::IndirectBank);
        self.saw_if(banks > 1 && usize::from(before[0]) >= banks, Kind::Modulo);
        self.saw(match banks {
            1 => Kind::Banks1,
            2 => Kind::Banks2,
            4 => Kind::Banks4,
            8 => Kind::Banks8,
            _ => Kind::Banks16,
        });
    }

    fn note_instruction(&mut self) {
        let (before, after, list) = (self.before, self.after, self.list);
        let opcode = list[0].value;
        let last = list[list.len() - 1];
        self.coverage.opcodes[part_index(before.part)][usize::from(opcode)] += 1;
        self.saw_if(before.pc < 0x0100, Kind::CodePage0);
        self.saw_if(before.pc >> 8 == 1, Kind::CodePage1);
        self.saw_if(
            before.pc < 2 && before.part != Part::Mos6502,
            Kind::CodeRegister,
        );
        let wraps_inside = before.pc == 0xFFFF && list[1].address == 0
            || before.pc == 0xFFFE && list.get(2).map_or(false, |a| a.address == 0);
        self.saw_if(wraps_inside, Kind::PcWrapInside);
        self.saw_if(before.pc >= 0xFFFD && after.pc == 0, Kind::PcWrapAfter);

        match opcode {
            0x61 | 0x65 | 0x69 | 0x6D | 0x71 | 0x75 | 0x79 | 0x7D => {
                self.note_decimal(last.value, Kind::DecimalAdc)
            }
            0xE1 | 0xE5 | 0xE9 | 0xED | 0xF1 | 0xF5 | 0xF9 | 0xFD => {
                self.note_decimal(last.value, Kind::DecimalSbc)
            }
            0x20 => self.note_jsr(),
            0x6C => {
                self.saw_if(list[3].address & 0xFF == 0xFF, Kind::JumpPageEnd);
                self.saw_if(list[3].address == 0xFFFF, Kind::JumpWrap);
            }
            0xB1 | 0x91 => self.note_banked(opcode),
            _ => {}
        }
        match opcode {
            0x20 | 0x00 | 0x08 | 0x48 => self.saw_if(after.s > before.s, Kind::PushWrap),
            0x60 | 0x40 | 0x28 | 0x68 => self.saw_if(after.s < before.s, Kind::PullWrap),
            _ => {}
        }
        self.note_mode(opcode);
    }

    fn note_decimal(&mut self, value: u8, kind: Kind) {
        if self.before.p & D != 0 {
            self.saw(kind);
            let digits = [
                self.before.a & 15,
                self.before.a >> 4,
                value & 15,
                value >> 4,
            ];
            self.saw_if(digits.iter().any(|&digit| digit > 9), Kind::BadDigit);
        }
    }

    fn note_jsr(&mut self) {
        // One page twice on the 6508.
        let cell = |address: u16| match (self.before.part, address) {
            (Part::Mos6508, 0x0100..=0x01FF) => address & 0x00FF,
            _ => address,
        };
        let is_register = self.before.part != Part::Mos6502 && self.list[5].address < 2;
        if self.before.protected_pages == 255 || is_register {
            return;
        }
        let [first, second, operand] = [3, 4, 5].map(|i| cell(self.list[i].address));
        self.saw_if(first == operand, Kind::JsrFirst);
        self.saw_if(second == operand, Kind::JsrSecond);
        let is_page_0 = self.list[5].address < 0x0100;
        self.saw_if(
            is_page_0 && (first == operand || second == operand),
            Kind::JsrPage0,
        );
    }

    fn note_banked(&mut self, opcode: u8) {
        let banks = self.case.image_len / BANK;
        let [execution, indirect] = self.before.registers.map(|bank| usize::from(bank) % banks);
        let is_6509 = self.before.part == Part::Mos6509;
        let is_other = is_6509 && execution != indirect;
        self.saw_if(is_other && opcode == 0xB1, Kind::LoadBanked);
        self.saw_if(is_other && opcode == 0x91, Kind::StoreBanked);
        let is_register = self.list[self.list.len() - 1].address < 2;
        self.saw_if(is_6509 && is_register, Kind::BankedRegister);
    }

    fn note_mode(&mut self, opcode: u8) {
        let list = self.list;
        let last = list[list.len() - 1].address;
        let is_store = matches!(opcode, 0x91 | 0x99 | 0x9D);
        match opcode & 0x1F {
            0x10 => self.saw(match list.len() {
                2 => Kind::BranchNot,
                3 => Kind::BranchTaken,
                _ => Kind::BranchCrossing,
            }),
            0x11 | 0x19 | 0x1C | 0x1D | 0x1E => {
                let early = list[if opcode & 0x1F == 0x11 { 4 } else { 3 }].address;
                let is_crossing = early != last;
                let is_change = opcode & 0x1F == 0x1E && opcode != 0xBE;
                self.saw(match (is_store, is_change, is_crossing) {
                    (true, _, false) => Kind::StoreWithin,
                    (true, _, true) => Kind::StoreCrossing,
                    (_, true, false) => Kind::ChangeWithin,
                    (_, true, true) => Kind::ChangeCrossing,
                    (_, _, false) => Kind::LoadWithin,
                    (_, _, true) => Kind::LoadCrossing,
                });
                self.saw_if(early >= 0xFF00 && last < 0x0100, Kind::SumWrap);
            }
            0x14..=0x16 => self.saw_if(last < list[2].address, Kind::ZeroWrap),
            _ => {}
        }
        match opcode & 0x1F {
            0x01 => self.saw_if(list[3].address == 0x00FF, Kind::PointerWrap),
            0x11 => self.saw_if(list[2].address == 0x00FF, Kind::PointerWrap),
            _ => {}
        }
    }
}
