//! Instructions, by callgrind: this program runs itself under it, and what it writes is read here.

use std::collections::BTreeMap;
use std::env;
use std::fs::{self, File};
use std::path::{Path, PathBuf};
use std::process::{self, Command, Stdio};

use crate::calls;
use crate::job::{Buffers, Job, Operation, Side};

/// What a child does under callgrind.
#[derive(Clone, Copy, Debug, PartialEq, Eq)]
pub enum Task {
    /// Every operation by every side, once.
    All,
    /// One operation by the library.
    One(Operation),
}

impl Task {
    pub fn name(self) -> &'static str {
        match self {
            Task::All => "all",
            Task::One(operation) => operation.name(),
        }
    }

    /// The task of a name.
    pub fn named(name: &str) -> Option<Self> {
        Operation::ALL.into_iter().map(Task::One).chain([Task::All]).find(|task| task.name() == name)
    }
}

/// The instructions of each function.
#[derive(Default, Debug, PartialEq, Eq)]
pub struct Profile {
    /// In the function itself.
    pub own: BTreeMap<String, u64>,
    /// In calls of the function, with all that they call.
    pub called: BTreeMap<String, u64>,
}

impl Profile {
    /// Reads what callgrind writes without compression: after `calls=` comes the cost of the calls, every other line of
    /// numbers is the function's own.
    pub fn read(text: &str) -> Self {
        let mut profile = Profile::default();
        let (mut function, mut callee, mut call) = (String::new(), String::new(), false);
        for line in text.lines() {
            if let Some(name) = line.strip_prefix("fn=") {
                function = plain(name);
            } else if let Some(name) = line.strip_prefix("cfn=") {
                callee = plain(name);
            } else if line.starts_with("calls=") {
                call = true;
            } else if let Some(cost) = cost(line) {
                let (map, name) = if call { (&mut profile.called, &callee) } else { (&mut profile.own, &function) };
                *map.entry(name.clone()).or_default() += cost;
                call = false;
            }
        }
        profile
    }

    pub fn total(&self) -> u64 {
        self.own.values().sum()
    }

    /// The instructions of the calls of one of the functions of `calls`.
    pub fn of(&self, side: Side, operation: Operation) -> Result<u64, String> {
        self.calls_of(side.module(), operation.name())
    }

    /// The instructions of the library's plan with the caller's buffer cleared first.
    pub fn cleared_plan(&self) -> Result<u64, String> {
        self.calls_of(Side::Ours.module(), "cleared_plan")
    }

    fn calls_of(&self, module: &str, function: &str) -> Result<u64, String> {
        let name = format!("benches::calls::{module}::{function}");
        self.called.get(&name).copied().ok_or(format!("callgrind has no calls of {name}"))
    }
}

/// A function's name without callgrind's mark of a call within itself, and the C library's copying and clearing without
/// the processor that they are for.
fn plain(name: &str) -> String {
    let name = name.split('\'').next().unwrap_or(name);
    let known = [("__memset", "memset"), ("__memcpy", "memcpy"), ("__memmove", "memcpy")];
    known.iter().find(|(start, _)| name.starts_with(start)).map_or(name, |(_, plain)| plain).to_owned()
}

/// The cost in a line of a position and a cost.
fn cost(line: &str) -> Option<u64> {
    let mut numbers = line.split(' ');
    numbers.next()?.parse::<u64>().ok()?;
    numbers.next()?.parse().ok()
}

/// Runs a task on a job in a child under callgrind.
pub fn profile(task: Task, job: &Job) -> Result<Profile, String> {
    let scratch = Scratch::new()?;
    let (book, list) = (scratch.file("book"), scratch.file("list"));
    fs::write(&book, &job.text).and_then(|()| fs::write(&list, &job.list)).map_err(|why| why.to_string())?;
    let program = env::current_exe().map_err(|why| why.to_string())?;
    let mut command = valgrind(&scratch.file("out"));
    command.args(["--collect-atstart=no", "--toggle-collect=benches::callgrind::measured"]);
    run(command.arg(program).args(["child", task.name()]).args([book, list]))?;
    scratch.profile()
}

/// The instructions of a whole process that reads a book on its standard input.
pub fn process(program: &Path, book: &Path) -> Result<u64, String> {
    let scratch = Scratch::new()?;
    let input = File::open(book).map_err(|why| format!("{}: {why}", book.display()))?;
    run(valgrind(&scratch.file("out")).arg(program).stdin(input))?;
    Ok(scratch.profile()?.total())
}

/// Callgrind with no environment but the search path: what stands there would move the stack, and copying takes a few
/// instructions more or less by where things lie.
fn valgrind(out: &Path) -> Command {
    let mut command = Command::new("valgrind");
    command.env_clear().env("PATH", env::var_os("PATH").unwrap_or_default());
    command.args(["--tool=callgrind", "--compress-strings=no", "--compress-pos=no", "-q"]);
    command.arg(format!("--callgrind-out-file={}", out.display())).stdout(Stdio::null());
    command
}

fn run(command: &mut Command) -> Result<(), String> {
    let status = command.status().map_err(|why| format!("valgrind does not run: {why}"))?;
    status.success().then_some(()).ok_or(format!("{command:?}: {status}"))
}

/// Every operation, in two turns. The reference takes far more memory for a page than for the others: before them it would
/// change where theirs lies, and so what it costs to lengthen a list.
const TURNS: [&[Operation]; 2] = {
    let (others, page) = Operation::ALL.as_slice().split_at(Operation::Page as usize);
    [others, page]
};

/// What the child runs: for each turn the reference once before it is counted, so that its memory is at hand, then the
/// task.
pub fn child(task: Task, job: &Job) {
    let mut buffers = Buffers::new();
    if let Task::One(operation) = task {
        return measured(task, &[operation], job, &mut buffers);
    }
    for turn in TURNS {
        for side in [Side::Reference, Side::Kept] {
            for &operation in turn {
                calls::call(operation, side, job, &mut buffers);
            }
        }
        measured(task, turn, job, &mut buffers);
    }
}

/// The part of the child that is counted.
#[inline(never)]
fn measured(task: Task, operations: &[Operation], job: &Job, buffers: &mut Buffers) {
    let sides = if task == Task::All { &Side::ALL[..] } else { &[Side::Ours] };
    for &side in sides {
        for &operation in operations {
            calls::call(operation, side, job, buffers);
        }
    }
    if task == Task::All && operations.contains(&Operation::Plan) {
        calls::cleared(job, buffers);
    }
}

/// A directory that is removed when it is dropped.
struct Scratch(PathBuf);

impl Scratch {
    fn new() -> Result<Self, String> {
        let path = env::temp_dir().join(format!("benches-{:010}", process::id()));
        fs::create_dir_all(&path).map_err(|why| format!("{}: {why}", path.display()))?;
        Ok(Scratch(path))
    }

    fn file(&self, name: &str) -> PathBuf {
        self.0.join(name)
    }

    fn profile(&self) -> Result<Profile, String> {
        let text = fs::read(self.file("out")).map_err(|why| format!("callgrind wrote nothing: {why}"))?;
        Ok(Profile::read(&String::from_utf8_lossy(&text)))
    }
}

impl Drop for Scratch {
    fn drop(&mut self) {
        // What stays behind is a few files in the system's temporary directory.
        let _ = fs::remove_dir_all(&self.0);
    }
}

#[cfg(test)]
mod tests {
    use super::*;

    #[test]
    fn tasks_and_their_names() {
        for task in Operation::ALL.map(Task::One).into_iter().chain([Task::All]) {
            assert_eq!(Task::named(task.name()), Some(task));
        }
        assert_eq!(Task::named("cleared_plan"), None);
    }

    #[test]
    fn turns_are_all_operations() {
        assert_eq!(TURNS.concat(), Operation::ALL);
        assert_eq!(TURNS[1], [Operation::Page]);
    }

    #[test]
    fn plain_names() {
        assert_eq!(
            ["inherit::crew_tried'2", "__memset_avx2", "main"].map(plain),
            ["inherit::crew_tried", "memset", "main"]
        );
    }

    #[test]
    fn own_cost_and_cost_of_calls() {
        let text = "events: Ir\nfn=a\n1 10\ncfn=b\ncalls=2 7\n1 300\n2 5\n\nfn=b\n7 300\ntotals: 315\n";
        let profile = Profile::read(text);
        assert_eq!(profile.own, BTreeMap::from([("a".to_owned(), 15), ("b".to_owned(), 300)]));
        assert_eq!(profile.called, BTreeMap::from([("b".to_owned(), 300)]));
        assert_eq!(profile.total(), 315);
    }
}
