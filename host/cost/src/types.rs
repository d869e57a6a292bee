//! The types that the program declares, and their sizes in bytes.

use std::collections::HashMap;
use std::fmt;

use crate::json::Json;

#[derive(Clone, Debug)]
pub enum Type {
    Unit,
    Bool,
    Int(u64),
    Pointer,
    Array(Box<Type>, usize),
    /// Without a name of its own, such as a slice's pointer and length.
    Struct(Vec<Type>),
    /// With what stands for its parameters. A tuple is one too.
    Named(String, Vec<Type>),
    /// A parameter of the type, the function or the impl in which it stands, by its number.
    Param(usize),
}

impl Type {
    /// With these in place of the parameters.
    pub fn with(&self, given: &[Type]) -> Type {
        match self {
            Type::Array(element, length) => Type::Array(Box::new(element.with(given)), *length),
            Type::Struct(fields) => Type::Struct(all_with(fields, given)),
            Type::Named(name, parameters) => Type::Named(name.clone(), all_with(parameters, given)),
            Type::Param(index) => given[*index].clone(),
            other => other.clone(),
        }
    }
}

fn all_with(types: &[Type], given: &[Type]) -> Vec<Type> {
    types.iter().map(|of| of.with(given)).collect()
}

impl fmt::Display for Type {
    fn fmt(&self, to: &mut fmt::Formatter) -> fmt::Result {
        match self {
            Type::Unit => write!(to, "()"),
            Type::Bool => write!(to, "bool"),
            Type::Int(bits) => write!(to, "u{}", bits),
            Type::Pointer => write!(to, "pointer"),
            Type::Array(element, length) => write!(to, "[{}; {}]", element, length),
            Type::Struct(fields) => write!(to, "a struct of {}", fields.len()),
            Type::Named(name, parameters) if parameters.is_empty() => write!(to, "{}", name),
            Type::Named(name, parameters) => {
                let parameters: Vec<String> = parameters.iter().map(Type::to_string).collect();
                write!(to, "{}<{}>", name, parameters.join(", "))
            }
            Type::Param(index) => write!(to, "parameter {}", index),
        }
    }
}

pub enum Declared {
    Struct(Vec<Type>),
    Enum(Vec<Vec<Type>>),
}

impl Declared {
    fn of(shape: &Json) -> Declared {
        match shape.case() {
            "Fields" => Declared::Struct(types_of(shape.inner())),
            "Variants" => Declared::Enum(shape.inner().list().iter().map(types_of).collect()),
            other => panic!("`{}` declares no type", other),
        }
    }

    fn with(self, given: &[Type]) -> Declared {
        match self {
            Declared::Struct(fields) => Declared::Struct(all_with(&fields, given)),
            Declared::Enum(variants) => Declared::Enum(variants.iter().map(|fields| all_with(fields, given)).collect()),
        }
    }
}

/// The declarations by their names. One is read where a type of it is met, as the language's library declares many that
/// no call here comes to.
#[derive(Default)]
pub struct Types<'a>(HashMap<&'a str, &'a Json>);

pub fn type_of(json: &Json) -> Type {
    match json.case() {
        "Unit" => Type::Unit,
        "Bool" => Type::Bool,
        "Int" => Type::Int(json.inner().number()),
        "Ptr" | "Ref" => Type::Pointer,
        "Array" => Type::Array(Box::new(type_of(json.inner().at(0))), literal(json.inner().at(1))),
        "Struct" => Type::Struct(types_of(json.inner().at(1))),
        "Named" => Type::Named(json.inner().at(0).field("name").text().to_string(), types_of(json.inner().at(1))),
        "Param" => Type::Param(json.inner().number() as usize),
        other => panic!("`{}` is no type that this program knows", other),
    }
}

/// A length that stands in the program as a number.
pub fn literal(json: &Json) -> usize {
    assert_eq!(json.case(), "Lit");
    json.inner().number() as usize
}

pub fn types_of(list: &Json) -> Vec<Type> {
    list.list().iter().map(type_of).collect()
}

/// The next place that is a multiple of the alignment.
fn aligned(place: usize, alignment: usize) -> usize {
    (place + alignment - 1) / alignment * alignment
}

impl<'a> Types<'a> {
    pub fn declare(&mut self, json: &'a Json) {
        self.0.insert(json.field("name").text(), json.field("shape"));
    }

    /// With these in place of its parameters.
    pub fn declared(&self, name: &str, given: &[Type]) -> Declared {
        let shape = self.0.get(name).unwrap_or_else(|| panic!("`{}` is not declared", name));
        Declared::of(shape).with(given)
    }

    fn alignment(&self, of: &Type) -> usize {
        match of {
            Type::Unit | Type::Bool => 1,
            Type::Int(bits) => *bits as usize / 8,
            Type::Pointer => 8,
            Type::Array(element, _) => self.alignment(element),
            Type::Struct(fields) => self.widest(fields),
            Type::Named(name, given) => match self.declared(name, given) {
                Declared::Struct(fields) => self.widest(&fields),
                Declared::Enum(variants) => variants.iter().map(|fields| self.widest(fields)).max().unwrap_or(1),
            },
            Type::Param(_) => panic!("nothing stands for {}", of),
        }
    }

    fn widest(&self, fields: &[Type]) -> usize {
        fields.iter().map(|field| self.alignment(field)).max().unwrap_or(1)
    }

    /// Where the fields end that begin at this place.
    fn end(&self, begin: usize, fields: &[Type]) -> usize {
        fields.iter().fold(begin, |place, field| aligned(place, self.alignment(field)) + self.size(field))
    }

    /// Fields in order, each at its alignment; an enum is a byte that names the variant, then the longest variant.
    pub fn size(&self, of: &Type) -> usize {
        let end = match of {
            Type::Unit => 0,
            Type::Array(element, length) => self.size(element) * length,
            Type::Struct(fields) => self.end(0, fields),
            Type::Named(name, given) => match self.declared(name, given) {
                Declared::Struct(fields) => self.end(0, &fields),
                Declared::Enum(variants) => variants.iter().map(|fields| self.end(1, fields)).max().unwrap_or(1),
            },
            _ => self.alignment(of),
        };
        aligned(end, self.alignment(of))
    }
}
