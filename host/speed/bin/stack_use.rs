//! The most stack that the bench program can take: the deepest chain of calls from `main`, frame by
//! frame. Standard input is the program's code as `objdump -d --no-show-raw-insn` shows it. The frames
//! are read there and not met in a run, so that the figure depends on no input, environment or page
//! size. Exit status 1 for code that cannot be followed: recursion, calls by pointer, a stack pointer
//! set otherwise. The C library's own frames are not counted.

use std::collections::{BTreeMap, BTreeSet, HashMap};
use std::io::stdin;
use std::ops::Range;
use std::process::ExitCode;

/// What a call pushes.
const RETURN_ADDRESS: i64 = 8;

/// Where the program's own code begins. The library's start, which calls it, is not counted.
const ROOT: &str = "bench::main";

/// What `main` and what it calls first lend to the rest (crates/bench/src/main.rt): the slots of the largest
/// panel, and a buffer each for input and output.
const SLOTS: i64 = 4096 * 8;
const BUFFERS: i64 = 2 * 65536;

/// A function's code, followed from its first instruction to its last.
#[derive(Default)]
struct Function {
    /// The bytes below the return address at this instruction.
    depth: i64,
    deepest: i64,
    /// The depth before the pops and additions that stand directly before this instruction.
    before: Option<i64>,
    /// Where the loop ends that lowers the stack pointer part by part, while it is set up.
    touched: Option<i64>,
    /// The functions called, with the depth there.
    calls: Vec<(u64, i64)>,
}

impl Function {
    fn follow(&mut self, instruction: &str, own: Range<u64>) -> Result<(), String> {
        let (name, operands) = instruction.split_once(' ').unwrap_or((instruction, ""));
        let operands = operands.trim();
        let number = constant(operands);
        let before = self.before.take();
        match (name, operands.rsplit(',').next(), number) {
            ("push", ..) => self.lower(before, 8)?,
            ("pop", ..) => self.lower(before, -8)?,
            ("sub", Some("%rsp"), Some(bytes)) => self.lower(before, bytes)?,
            ("add", Some("%rsp"), Some(bytes)) => self.lower(before, -bytes)?,
            ("mov", ..) if operands == "%rsp,%r11" => self.touched = Some(self.depth),
            ("sub", Some("%r11"), Some(bytes)) => self.touched = self.touched.map(|d| d + bytes),
            ("lea", Some("%r11"), _) => self.touched = lowered(operands).map(|d| self.depth + d),
            ("cmp", ..) if operands == "%r11,%rsp" => self.touch()?,
            ("ret", ..) => self.end(before)?,
            ("call", ..) => self.call(name, operands, own)?,
            _ if name.starts_with('j') => self.call(name, operands, own)?,
            ("cmp" | "test", ..) => {}
            ("leave", ..) | (_, Some("%rsp"), _) => return Err(instruction.to_string()),
            _ => self.use_below(operands),
        }
        Ok(())
    }

    /// The stack pointer goes down by so many bytes, or up.
    fn lower(&mut self, before: Option<i64>, bytes: i64) -> Result<(), String> {
        if bytes < 0 {
            self.before = before.or(Some(self.depth));
        }
        self.depth += bytes;
        if self.depth < 0 {
            return Err("more is taken off the stack than was put there".to_string());
        }
        self.deepest = self.deepest.max(self.depth);
        Ok(())
    }

    /// The end of the loop that lowers the stack pointer part by part.
    fn touch(&mut self) -> Result<(), String> {
        let touched = self.touched.take();
        let touched = touched.ok_or("a stack pointer compared with an unknown one")?;
        self.lower(None, touched - self.depth)
    }

    /// The code behind a return is reached by jumps from before the frame was taken down.
    fn end(&mut self, before: Option<i64>) -> Result<(), String> {
        if let Some(before) = before {
            if self.depth != 0 {
                return Err(format!("a return with {} bytes on the stack", self.depth));
            }
            self.depth = before;
        }
        Ok(())
    }

    /// A jump out of the function is a call too.
    fn call(&mut self, name: &str, operands: &str, own: Range<u64>) -> Result<(), String> {
        match (name, target(operands)) {
            ("call", None) => return Err("a call by pointer".to_string()),
            ("call", Some(called)) => self.calls.push((called, self.depth)),
            (_, Some(called)) if !own.contains(&called) => self.calls.push((called, self.depth)),
            _ => {}
        }
        Ok(())
    }

    /// A function that calls none may use some bytes below its stack pointer.
    fn use_below(&mut self, operands: &str) {
        if let Some((offset, _)) = operands.split_once("(%rsp") {
            let offset = offset.rsplit(',').next().unwrap_or_default();
            let below = offset.strip_prefix("-0x");
            let below = below.and_then(|digits| i64::from_str_radix(digits, 16).ok());
            self.deepest = self.deepest.max(self.depth + below.unwrap_or(0));
        }
    }
}

/// The number with which the operands begin. A negative one is shown as its 64 bits.
fn constant(operands: &str) -> Option<i64> {
    let digits = operands.strip_prefix("$0x")?.split(',').next()?;
    let bits = u64::from_str_radix(digits, 16).ok()?;
    Some(bits as i64)
}

/// How far below the stack pointer an address lies.
fn lowered(operands: &str) -> Option<i64> {
    let digits = operands.strip_prefix("-0x")?.strip_suffix("(%rsp),%r11")?;
    i64::from_str_radix(digits, 16).ok()
}

/// The program's instructions by their addresses, and where its functions begin, by name and by address.
#[derive(Default)]
struct Code {
    instructions: BTreeMap<u64, String>,
    named: HashMap<String, u64>,
    starts: BTreeSet<u64>,
}

impl Code {
    /// A function's name, or where it begins.
    fn name(&self, start: u64) -> String {
        let named = self.named.iter().find(|(_, address)| **address == start);
        named.map_or(format!("{start:x}"), |(name, _)| name.clone())
    }
}

/// The address that a call or a jump names.
fn target(operands: &str) -> Option<u64> {
    let (address, _) = operands.split_once(" <")?;
    u64::from_str_radix(address, 16).ok()
}

/// Not every function has a name: one begins wherever a call leads.
fn read_code(lines: impl Iterator<Item = String>) -> Code {
    let mut code = Code::default();
    for line in lines {
        let head = line.strip_suffix(">:").and_then(|h| h.split_once(" <"));
        let (place, words) = head.or(line.split_once(":\t")).unwrap_or_default();
        let Ok(address) = u64::from_str_radix(place.trim(), 16) else {
            continue;
        };
        if head.is_some() {
            code.named.insert(words.to_string(), address);
            code.starts.insert(address);
        } else {
            // A remark names what lies at a distance: a table of jumps behind a function's code, too.
            let (instruction, far) = words.split_once(" # ").unwrap_or((words, ""));
            let instruction = instruction.trim();
            let called = instruction.strip_prefix("call ").unwrap_or(far);
            code.starts.extend(target(called.trim()));
            code.instructions.insert(address, instruction.to_string());
        }
    }
    code
}

/// A function ends where the next begins, or where the bytes that fill up to it do.
fn follow(code: &Code, start: u64) -> Result<Function, String> {
    let next = code.starts.range(start + 1..).next();
    let next = next.copied().unwrap_or(u64::MAX);
    let filled = code.instructions.range(start..next);
    let filled = filled.filter(|(_, instruction)| *instruction == "int3");
    let end = filled.map(|(address, _)| *address).next().unwrap_or(next);
    let mut function = Function::default();
    for instruction in code.instructions.range(start..end).map(|(_, each)| each) {
        function.follow(instruction, start..end)?;
    }
    Ok(function)
}

/// A function in a chain of calls, and its bytes up to the next one's.
#[derive(Clone)]
struct Frame {
    name: String,
    bytes: i64,
}

fn total(chain: &[Frame]) -> i64 {
    chain.iter().map(|frame| frame.bytes).sum()
}

/// The deepest chain of calls that goes on with this function.
fn deepest_chain(code: &Code, callers: &[Frame], start: u64) -> Result<Vec<Frame>, String> {
    let name = code.name(start);
    if callers.iter().any(|caller| caller.name == name) {
        return Err(format!("{name} calls itself"));
    }
    let function = follow(code, start).map_err(|reason| format!("{name}: {reason}"))?;
    let with = |depth| {
        let frame = Frame {
            name: name.clone(),
            bytes: RETURN_ADDRESS + depth,
        };
        [callers, &[frame]].concat()
    };
    let mut deepest = with(function.deepest);
    for (callee, depth) in function.calls {
        if !code.name(callee).ends_with("@plt") {
            let chain = deepest_chain(code, &with(depth), callee)?;
            if total(&chain) > total(&deepest) {
                deepest = chain;
            }
        }
    }
    Ok(deepest)
}

fn report() -> Result<(), String> {
    let code = read_code(stdin().lines().map_while(Result::ok));
    let start = code.named.get(ROOT).ok_or(format!("there is no {ROOT}"))?;
    let chain = deepest_chain(&code, &[], *start)?;
    let rest = total(&chain) - SLOTS - BUFFERS;
    if rest < 0 {
        return Err("the slots and the buffers are not on the stack".to_string());
    }
    println!(
        "stack of the bench program: at most {} bytes",
        total(&chain)
    );
    for Frame { name, bytes } in &chain {
        println!("  {bytes:>7} {name}");
    }
    println!("  {SLOTS} are the slots, {BUFFERS} the two buffers, {rest} all else");
    Ok(())
}

fn main() -> ExitCode {
    match report() {
        Ok(()) => ExitCode::SUCCESS,
        Err(reason) => {
            eprintln!("stack_use: {reason}");
            ExitCode::FAILURE
        }
    }
}
