//! The print of a list by docs/RULES.md, section 8, written from the rules' words and not from the crate.
use crate::model::{Attribute, Closing, Infer, Item, Operand, Statement, Value};
use std::collections::{HashMap, HashSet};

/// The print of a list of items.
pub fn print(items: &[Item]) -> Vec<u8> {
    let mut printed = vec![];
    for item in items {
        let places = item.statements.iter().enumerate().filter_map(|(place, statement)| match statement {
            Statement::Assignment { name, .. } => Some((*name, place)),
            _ => None,
        });
        let mut printer =
            Printer { item, places: places.collect(), marks: HashSet::new(), printed: std::mem::take(&mut printed) };
        printer.item();
        printed = printer.printed;
    }
    printed
}

struct Printer<'i, 't> {
    item: &'i Item<'t>,
    /// The statement that each name is assigned by.
    places: HashMap<&'t [u8], usize>,
    marks: HashSet<usize>,
    printed: Vec<u8>,
}

impl<'i, 't> Printer<'i, 't> {
    fn put(&mut self, letters: &[u8]) {
        self.printed.extend_from_slice(letters);
    }

    fn item(&mut self) {
        match &self.item.closing {
            Closing::Infer(infer) => self.infer(infer),
            Closing::Replaced(infer, operand) => {
                self.infer(infer);
                self.result(operand);
            }
            Closing::Result(operand) => self.result(operand),
            Closing::Cand(left, right, attributes) => {
                self.root(left);
                self.root(right);
                self.put(b"cand ");
                self.operand(left);
                self.put(b" ");
                self.operand(right);
                self.attributes(attributes);
                self.put(b"\n");
            }
        }
    }

    fn infer(&mut self, infer: &Infer) {
        self.reach(infer.name);
        self.put(b"infer ");
        self.put(infer.name);
        self.attributes(&infer.attributes);
        self.put(b"\n");
    }

    fn result(&mut self, operand: &Operand) {
        self.root(operand);
        self.put(b"result ");
        self.operand(operand);
        self.put(b"\n");
    }

    fn root(&mut self, operand: &Operand) {
        if let Operand::Value(name) = operand {
            self.reach(name);
        }
    }

    /// Prints the assignment of a name after all that it refers to, where that has not been done.
    fn reach(&mut self, name: &[u8]) {
        let place = self.places[name];
        if !self.marks.insert(place) {
            return;
        }
        let item = self.item;
        let Statement::Assignment { name, width, value, attributes } = &item.statements[place] else { unreachable!() };
        if let Value::Phi(block, _) = value {
            self.reach(block);
        }
        if let Value::Phi(_, operands) | Value::Instruction(_, operands) = value {
            operands.iter().for_each(|operand| self.root(operand));
        }
        self.put(name);
        self.width(*width);
        self.put(b" = ");
        self.value(value);
        self.attributes(attributes);
        self.put(b"\n");
    }

    fn width(&mut self, width: Option<u64>) {
        if let Some(width) = width {
            self.put(format!(":i{}", width).as_bytes());
        }
    }

    fn value(&mut self, value: &Value) {
        match value {
            Value::Word(word) => self.put(word),
            Value::Block(number) => self.put(format!("block {}", number).as_bytes()),
            Value::Phi(block, operands) => {
                self.put(b"phi ");
                self.put(block);
                for operand in operands {
                    self.put(b", ");
                    self.operand(operand);
                }
            }
            Value::Instruction(name, operands) => {
                self.put(name);
                for (index, operand) in operands.iter().enumerate() {
                    self.put(if index == 0 { b" " } else { b", " });
                    self.operand(operand);
                }
            }
        }
    }

    fn operand(&mut self, operand: &Operand) {
        match operand {
            Operand::Value(name) => self.put(name),
            Operand::Constant(number, width) => {
                self.put(number.to_string().as_bytes());
                self.width(*width);
            }
        }
    }

    fn attributes(&mut self, attributes: &[Attribute]) {
        for attribute in attributes {
            self.put(b" (");
            match attribute {
                Attribute::Word(word) => self.put(word),
                Attribute::KnownBits(pattern) => self.put(&[b"knownBits=", *pattern].concat()),
                Attribute::DemandedBits(pattern) => self.put(&[b"demandedBits=", *pattern].concat()),
                Attribute::SignBits(number) => self.put(format!("signBits={}", number).as_bytes()),
                Attribute::Range(min, max) => self.put(format!("range=[{},{})", min, max).as_bytes()),
            }
            self.put(b")");
        }
    }
}
