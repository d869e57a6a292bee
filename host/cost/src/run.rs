//! Runs a function of the program, one statement after the other, and counts the records that it copies.

use std::collections::{BTreeMap, HashMap};

use crate::json::Json;
use crate::types::{literal, type_of, types_of, Declared, Type, Types};

#[derive(Clone, Debug)]
pub enum Value {
    Int(u64),
    /// A struct or an array.
    Record(Vec<Value>),
    /// The number of the variant, and its fields.
    Variant(usize, Vec<Value>),
    Pointer(Spot),
}

/// A local of a running call, or a part of it: the call, the local, and the fields and elements on the way.
#[derive(Clone, Debug)]
pub struct Spot {
    frame: usize,
    local: usize,
    path: Vec<usize>,
}

impl Value {
    fn int(&self) -> u64 {
        match self {
            Value::Int(number) => *number,
            other => panic!("{:?} is no number", other),
        }
    }

    pub fn field(&self, index: usize) -> &Value {
        match self {
            Value::Record(fields) | Value::Variant(_, fields) => &fields[index],
            other => panic!("{:?} has no fields", other),
        }
    }

    fn field_mut(&mut self, index: usize) -> &mut Value {
        match self {
            Value::Record(fields) | Value::Variant(_, fields) => &mut fields[index],
            other => panic!("{:?} has no fields", other),
        }
    }
}

/// How many values of each type were copied.
pub type Copies = BTreeMap<String, usize>;

pub struct Program<'a> {
    functions: HashMap<&'a str, &'a Json>,
    /// The functions of each impl, in its trait's order.
    methods: HashMap<&'a str, &'a Json>,
    pub types: Types<'a>,
}

/// What stands for the parameters of a function or an impl: types, and an impl for each bound on them.
#[derive(Clone, Default)]
struct Given {
    types: Vec<Type>,
    impls: Vec<Impl>,
}

#[derive(Clone)]
struct Impl {
    name: String,
    given: Given,
}

impl Given {
    fn and(mut self, more: Given) -> Given {
        self.types.extend(more.types);
        self.impls.extend(more.impls);
        self
    }
}

/// A function's body, which stands in the program as a list: each statement before those that are inside it.
enum Statement<'a> {
    Seq(Box<Statement<'a>>, Box<Statement<'a>>),
    Skip,
    Return,
    Exit(usize),
    Block(Box<Statement<'a>>),
    Loop(Box<Statement<'a>>),
    If(&'a Json, Box<Statement<'a>>, Box<Statement<'a>>),
    /// The keys of each arm, and what else goes on.
    Switch(&'a Json, Vec<(&'a Json, Statement<'a>)>, Option<Box<Statement<'a>>>),
    /// One that has no other inside it.
    Plain(&'a Json),
}

impl<'a> Statement<'a> {
    fn inside(list: &mut std::slice::Iter<'a, Json>) -> Box<Statement<'a>> {
        Box::new(Statement::first(list))
    }

    fn first(list: &mut std::slice::Iter<'a, Json>) -> Statement<'a> {
        let json = list.next().expect("a statement");
        match json.case() {
            "Seq" => Statement::Seq(Statement::inside(list), Statement::inside(list)),
            "Skip" => Statement::Skip,
            "Return" => Statement::Return,
            "Exit" => Statement::Exit(json.inner().number() as usize),
            "Block" => Statement::Block(Statement::inside(list)),
            "Loop" => Statement::Loop(Statement::inside(list)),
            "If" => Statement::If(json.inner(), Statement::inside(list), Statement::inside(list)),
            "Switch" => {
                let parts = json.inner();
                let arms = parts.at(1).list().iter().map(|keys| (keys, Statement::first(list))).collect();
                let other = if parts.at(2).flag() { Some(Statement::inside(list)) } else { None };
                Statement::Switch(parts.at(0), arms, other)
            }
            _ => Statement::Plain(json),
        }
    }
}

/// A call that is running; or, beneath the first one, what it is lent, and the program's constants.
#[derive(Default)]
struct Frame {
    given: Given,
    types: Vec<Type>,
    locals: Vec<Option<Value>>,
}

impl<'a> Program<'a> {
    /// Of each library a list of its functions, each a name and what it is.
    pub fn new(libraries: &'a [Json]) -> Program<'a> {
        let mut program = Program { functions: HashMap::new(), methods: HashMap::new(), types: Types::default() };
        for named in libraries.iter().flat_map(Json::list) {
            program.functions.insert(named.at(0).text(), named.at(1));
            program.declare(named.at(1));
        }
        program
    }

    /// The types and the impls that stand with a function.
    fn declare(&mut self, function: &'a Json) {
        for declared in function.field("types").list() {
            self.types.declare(declared);
        }
        for declared in function.field("generics").field("impls").list() {
            self.methods.insert(declared.field("name").text(), declared.field("methods"));
        }
    }

    fn method(&self, of: &str, index: usize) -> String {
        let methods = self.methods.get(of).unwrap_or_else(|| panic!("there is no impl `{}`", of));
        methods.at(index).text().to_string()
    }

    /// The function's result. Each copy of a value that has at least `least` bytes is added to `copies`.
    pub fn call(&self, name: &str, arguments: Vec<Value>, least: usize, copies: &mut Copies) -> Value {
        Run { program: self, least, copies, frames: vec![Frame::default()] }.result(name, Given::default(), arguments)
    }

    /// The same of a function whose first argument is bytes that are lent to it.
    pub fn call_lent(
        &self,
        name: &str,
        bytes: &mut Vec<u8>,
        others: Vec<Value>,
        least: usize,
        copies: &mut Copies,
    ) -> Value {
        let lent = Value::Record(bytes.iter().map(|&byte| Value::Int(byte.into())).collect());
        let types = vec![Type::Array(Box::new(Type::Int(8)), bytes.len())];
        let first = Value::Pointer(Spot { frame: 0, local: 0, path: Vec::new() });
        let slice = Value::Record(vec![first, Value::Int(bytes.len() as u64)]);
        let beneath = Frame { given: Given::default(), types, locals: vec![Some(lent)] };
        let mut run = Run { program: self, least, copies, frames: vec![beneath] };
        let result = run.result(name, Given::default(), std::iter::once(slice).chain(others).collect());
        let after = run.frames[0].locals[0].take().expect("the bytes");
        (0..bytes.len()).for_each(|at| bytes[at] = after.field(at).int() as u8);
        result
    }
}

/// What goes on after a statement.
enum Flow {
    On,
    Returned,
    /// What encloses this many further blocks or loops is left, or begun again where it is a loop.
    Exit(usize),
}

impl Flow {
    /// As it is outside of one block or loop.
    fn out(self) -> Flow {
        match self {
            Flow::Exit(0) => Flow::On,
            Flow::Exit(further) => Flow::Exit(further - 1),
            flow => flow,
        }
    }
}

struct Run<'p, 'a, 'c> {
    program: &'p Program<'a>,
    least: usize,
    copies: &'c mut Copies,
    /// The innermost call is the last.
    frames: Vec<Frame>,
}

impl Run<'_, '_, '_> {
    fn count(&mut self, of: &Type) {
        let size = self.program.types.size(of);
        if size >= self.least {
            *self.copies.entry(format!("{}, {} bytes", of, size)).or_insert(0) += 1;
        }
    }

    fn result(&mut self, name: &str, given: Given, arguments: Vec<Value>) -> Value {
        let function = self.program.functions.get(name).unwrap_or_else(|| panic!("there is no function `{}`", name));
        let declared = function.field("locals").list().iter().map(|local| type_of(local.field("ty")));
        let types: Vec<Type> = declared.map(|of| of.with(&given.types)).collect();
        let mut locals = vec![None; types.len()];
        for (place, argument) in locals[1..].iter_mut().zip(arguments) {
            *place = Some(argument);
        }
        self.frames.push(Frame { given, types, locals });
        let mut body = function.field("body").list().iter();
        self.statement(&Statement::first(&mut body));
        assert!(body.next().is_none(), "`{}` has a statement too many", name);
        self.frames.pop().and_then(|mut frame| frame.locals[0].take()).expect("a result")
    }

    fn innermost(&self) -> &Frame {
        self.frames.last().expect("a call")
    }

    /// As it is in the innermost call.
    fn type_of(&self, json: &Json) -> Type {
        type_of(json).with(&self.innermost().given.types)
    }

    fn given(&self, types: &Json, impls: &Json) -> Given {
        Given {
            types: types_of(types).iter().map(|of| of.with(&self.innermost().given.types)).collect(),
            impls: impls.list().iter().map(|json| self.implementation(json)).collect(),
        }
    }

    fn implementation(&self, json: &Json) -> Impl {
        let parts = json.inner();
        match json.case() {
            "Given" => self.innermost().given.impls[parts.number() as usize].clone(),
            "Impl" => Impl { name: parts.at(0).text().to_string(), given: self.given(parts.at(1), parts.at(2)) },
            other => panic!("`{}` is no impl that this program knows", other),
        }
    }

    /// The function that is called, and what stands for its parameters. One of an impl has the impl's before its own.
    fn callee(&self, json: &Json) -> (String, Given) {
        let parts = json.inner();
        match json.case() {
            "Fn" => {
                (parts.at(0).text().to_string(), self.given(parts.at(1).field("types"), parts.at(1).field("dicts")))
            }
            "Method" => {
                let own = self.given(parts.at(2).field("types"), parts.at(2).field("dicts"));
                let Impl { name, given } = self.implementation(parts.at(0));
                (self.program.method(&name, parts.at(1).number() as usize), given.and(own))
            }
            other => panic!("`{}` is no function that this program knows", other),
        }
    }

    /// Where a place is, and its type. The tag of an enum is its field 0.
    fn resolve(&self, place: &Json) -> (Spot, Type) {
        let local = place.field("local").number() as usize;
        let mut spot = Spot { frame: self.frames.len() - 1, local, path: Vec::new() };
        let mut of = self.frames[spot.frame].types[spot.local].clone();
        let mut variant = None;
        for step in place.field("steps").list() {
            match step.case() {
                "Field" => {
                    let index = step.inner().number() as usize;
                    of = self.part_type(&of, variant.take(), index);
                    spot.path.push(index);
                }
                "Variant" => variant = Some(step.inner().number() as usize),
                "Deref" => {
                    spot = self.pointed(&spot);
                    of = self.type_of(step.inner());
                }
                other => panic!("`{}` is no step to a place", other),
            }
        }
        (spot, of)
    }

    fn pointed(&self, spot: &Spot) -> Spot {
        match self.at(spot) {
            Value::Pointer(to) => to,
            other => panic!("{:?} is no pointer", other),
        }
    }

    fn part_type(&self, of: &Type, variant: Option<usize>, index: usize) -> Type {
        match of {
            Type::Array(element, _) => (**element).clone(),
            Type::Struct(fields) => fields[index].clone(),
            Type::Named(name, given) => match (self.program.types.declared(name, given), index) {
                (Declared::Struct(fields), _) => fields[index].clone(),
                (Declared::Enum(_), 0) => Type::Int(8),
                (Declared::Enum(variants), _) => variants[variant.expect("a variant")][index - 1].clone(),
            },
            _ => panic!("{:?} has no parts", of),
        }
    }

    fn at(&self, spot: &Spot) -> Value {
        let mut value = self.frames[spot.frame].locals[spot.local].as_ref().expect("a value");
        for &index in &spot.path {
            match value {
                Value::Variant(tag, _) if index == 0 => return Value::Int(*tag as u64),
                Value::Variant(_, fields) => value = &fields[index - 1],
                _ => value = value.field(index),
            }
        }
        value.clone()
    }

    fn write(&mut self, place: &Json, value: Value) {
        let (spot, _) = self.resolve(place);
        let local = &mut self.frames[spot.frame].locals[spot.local];
        if spot.path.is_empty() {
            *local = Some(value);
            return;
        }
        let mut target = local.as_mut().expect("a value");
        for index in spot.path {
            target = target.field_mut(index);
        }
        *target = value;
    }

    fn operand(&mut self, json: &Json) -> Value {
        match json.case() {
            "Copy" => {
                let (spot, of) = self.resolve(json.inner());
                self.count(&of);
                self.at(&spot)
            }
            "Int" => Value::Int(json.inner().field("value").number()),
            "True" => Value::Int(1),
            "False" => Value::Int(0),
            "Unit" => Value::Record(Vec::new()),
            other => panic!("`{}` is no operand that this program knows", other),
        }
    }

    fn is_enum(&self, of: &Type) -> bool {
        match of {
            Type::Named(name, given) => matches!(self.program.types.declared(name, given), Declared::Enum(_)),
            _ => false,
        }
    }

    /// A new value: of an enum, the first operand is the variant's number.
    fn aggregate(&mut self, parts: &Json, of: &Type) -> Value {
        let mut values: Vec<Value> = parts.list().iter().map(|part| self.operand(part)).collect();
        if self.is_enum(of) {
            let tag = values.remove(0).int() as usize;
            return Value::Variant(tag, values);
        }
        Value::Record(values)
    }

    /// So many bytes further, into an array or on from an element of one.
    fn offset(&self, mut spot: Spot, bytes: usize) -> Spot {
        let local = self.frames[spot.frame].types[spot.local].clone();
        let of = spot.path.iter().fold(local, |of, &index| self.part_type(&of, None, index));
        match &of {
            Type::Array(element, _) => spot.path.push(bytes / self.program.types.size(element)),
            _ => *spot.path.last_mut().expect("an element") += bytes / self.program.types.size(&of),
        }
        spot
    }

    fn binary(&self, operator: &str, a: Value, b: Value) -> Value {
        if let Value::Pointer(spot) = a {
            assert_eq!(operator, "Offset");
            return Value::Pointer(self.offset(spot, b.int() as usize));
        }
        let (a, b) = (a.int(), b.int());
        Value::Int(match operator {
            "Add" => a + b,
            "Sub" => a - b,
            "Mul" => a * b,
            "Div" => a / b,
            "Rem" => a % b,
            "Eq" => u64::from(a == b),
            "Ne" => u64::from(a != b),
            "Lt" => u64::from(a < b),
            "Le" => u64::from(a <= b),
            "And" => a & b,
            "Or" => a | b,
            other => panic!("`{}` is no operator that this program knows", other),
        })
    }

    fn value(&mut self, json: &Json, place: &Json) -> Value {
        let parts = json.inner();
        match json.case() {
            "Opd" => self.operand(parts),
            "AddrOf" => Value::Pointer(self.resolve(parts).0),
            "Aggregate" => {
                let (_, of) = self.resolve(place);
                self.aggregate(parts, &of)
            }
            "Repeat" => {
                let value = self.operand(parts.at(0));
                Value::Record(vec![value; literal(parts.at(1))])
            }
            "Op1" if parts.at(0).case() == "Not" => Value::Int(1 - self.operand(parts.at(1)).int()),
            "Op1" if parts.at(0).case() == "Cast" => self.operand(parts.at(1)),
            "Op2" => {
                let a = self.operand(parts.at(1));
                let b = self.operand(parts.at(2));
                self.binary(parts.at(0).case(), a, b)
            }
            other => panic!("`{}` makes no value that this program knows", other),
        }
    }

    fn call(&mut self, parts: &Json) {
        let (name, given) = self.callee(parts.at(0));
        let arguments = parts.at(1).list().iter().map(|part| self.operand(part)).collect();
        let result = self.result(&name, given, arguments);
        let (_, of) = self.resolve(parts.at(2));
        self.count(&of);
        self.write(parts.at(2), result);
    }

    /// The numbers of a table, or the parts of a value.
    fn constant(&mut self, json: &Json, of: &Type) -> Value {
        match json.case() {
            "Ints" => {
                let numbers = json.inner().field("values").list();
                Value::Record(numbers.iter().map(|number| Value::Int(number.number())).collect())
            }
            "Parts" => self.aggregate(json.inner(), of),
            other => panic!("`{}` is no constant that this program knows", other),
        }
    }

    /// A constant of the program's own: it stands beneath the running calls.
    fn lend(&mut self, parts: &Json) {
        let of = self.type_of(parts.at(1));
        let constant = self.constant(parts.at(2), &of);
        let beneath = &mut self.frames[0];
        beneath.types.push(of);
        beneath.locals.push(Some(constant));
        let spot = Spot { frame: 0, local: beneath.locals.len() - 1, path: Vec::new() };
        self.write(parts.at(0), Value::Pointer(spot));
    }

    fn plain(&mut self, json: &Json) {
        let parts = json.inner();
        match json.case() {
            "Assign" => {
                let value = self.value(parts.at(1), parts.at(0));
                self.write(parts.at(0), value);
            }
            "Call" => self.call(parts),
            "LendStatic" => self.lend(parts),
            other => panic!("`{}` is no statement that this program knows", other),
        }
    }

    fn statement(&mut self, statement: &Statement) -> Flow {
        match statement {
            Statement::Seq(first, second) => match self.statement(first) {
                Flow::On => self.statement(second),
                left => left,
            },
            Statement::Skip => Flow::On,
            Statement::Return => Flow::Returned,
            Statement::Exit(further) => Flow::Exit(*further),
            Statement::Block(body) => self.statement(body).out(),
            Statement::Loop(body) => self.repeat(body),
            Statement::If(condition, then, other) => {
                let taken = self.operand(condition).int() == 1;
                self.statement(if taken { then } else { other })
            }
            Statement::Switch(on, arms, other) => {
                let on = self.operand(on).int();
                let arm = arms.iter().find(|(keys, _)| keys.list().iter().any(|key| key.number() == on));
                match (arm, other) {
                    (Some((_, arm)), _) => self.statement(arm),
                    (None, Some(other)) => self.statement(other),
                    (None, None) => panic!("no arm for {}", on),
                }
            }
            Statement::Plain(json) => {
                self.plain(json);
                Flow::On
            }
        }
    }

    fn repeat(&mut self, body: &Statement) -> Flow {
        loop {
            match self.statement(body).out() {
                Flow::On => {}
                left => return left,
            }
        }
    }
}
