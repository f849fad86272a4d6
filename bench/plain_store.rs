//! The yardstick of the measures: the same answers from plain Rust, with no shards, no holds, no history and no proof.
//!
//! `rustc -O plain_store.rs` makes it. It reads a script whose lines are all `CLIENT COMMAND`, behind the store line, from
//! standard input, and writes what `tect replay` writes for it. It ends at a line of another form.
use std::collections::btree_map::{BTreeMap, Entry};
use std::collections::HashMap;
use std::io::{self, BufWriter, Read, Write};

#[derive(Clone, Copy, PartialEq)]
enum Node {
    Dir(u64),
    File(u64),
}

/// A client: its number, how many commands it began, and how many objects it made.
struct Client {
    number: u64,
    commands: u32,
    made: u64,
}

/// The answer of a command that was done.
enum Answer {
    Done,
    Node(Node),
    Entries(u64),
}

/// A file: how many entries name it, as `tect` counts its holds.
struct File {
    holds: u32,
}

/// The directories by number, each with its entries by name, and the files by number. A file without a name stays, as in `tect`.
struct Store {
    dirs: HashMap<u64, BTreeMap<String, Node>>,
    files: HashMap<u64, File>,
}

const ROOT: u64 = 1;

impl Store {
    fn new() -> Self {
        Store { dirs: HashMap::from([(ROOT, BTreeMap::new())]), files: HashMap::new() }
    }

    fn entries(&mut self, dir: u64) -> &mut BTreeMap<String, Node> {
        self.dirs.get_mut(&dir).expect("a directory that is named stands")
    }

    /// The directory of these names, counting a transaction for each.
    fn walk(&self, names: &[&str], count: &mut u32) -> Result<u64, &'static str> {
        names.iter().try_fold(ROOT, |dir, name| {
            *count += 1;
            match self.dirs[&dir].get(*name) {
                None => Err("no-name"),
                Some(Node::File(_)) => Err("not-dir"),
                Some(Node::Dir(next)) => Ok(*next),
            }
        })
    }

    fn look(&self, names: &[&str], count: &mut u32) -> Result<Answer, &'static str> {
        let Some((last, way)) = names.split_last() else {
            *count = 1;
            return Ok(Answer::Node(Node::Dir(ROOT)));
        };
        let dir = self.walk(way, count)?;
        *count += 1;
        self.dirs[&dir].get(*last).map(|node| Answer::Node(*node)).ok_or("no-name")
    }

    fn list(&self, names: &[&str], count: &mut u32) -> Result<Answer, &'static str> {
        let dir = self.walk(names, count)?;
        *count += 1;
        Ok(Answer::Entries(dir))
    }

    fn create(&mut self, names: &[&str], id: u64, count: &mut u32) -> Result<Answer, &'static str> {
        let (last, way) = names.split_last().ok_or("no-name")?;
        let dir = self.walk(way, count)?;
        self.files.insert(id, File { holds: 1 });
        *count += 2;
        let replaced = match self.entries(dir).entry(last.to_string()) {
            Entry::Vacant(free) => {
                free.insert(Node::File(id));
                return Ok(Answer::Node(Node::File(id)));
            }
            Entry::Occupied(mut taken) => match *taken.get() {
                Node::Dir(_) => None,
                Node::File(old) => {
                    taken.insert(Node::File(id));
                    Some(old)
                }
            },
        };
        *count += 1;
        self.release(replaced.unwrap_or(id));
        replaced.map(|_| Answer::Node(Node::File(id))).ok_or("is-dir")
    }

    fn release(&mut self, file: u64) {
        if let Some(file) = self.files.get_mut(&file) {
            file.holds -= 1;
        }
    }

    fn mkdir(&mut self, names: &[&str], id: u64, count: &mut u32) -> Result<Answer, &'static str> {
        let (last, way) = names.split_last().ok_or("no-name")?;
        let dir = self.walk(way, count)?;
        *count += 2;
        if let Entry::Vacant(free) = self.entries(dir).entry(last.to_string()) {
            free.insert(Node::Dir(id));
            self.dirs.insert(id, BTreeMap::new());
            return Ok(Answer::Node(Node::Dir(id)));
        }
        *count += 1;
        Err("exists")
    }

    fn delete(&mut self, names: &[&str], count: &mut u32) -> Result<Answer, &'static str> {
        let (last, way) = names.split_last().ok_or("no-name")?;
        let dir = self.walk(way, count)?;
        *count += 1;
        match self.entries(dir).get(*last) {
            None => Err("no-name"),
            Some(Node::Dir(_)) => Err("is-dir"),
            Some(Node::File(file)) => {
                let file = *file;
                self.entries(dir).remove(*last);
                self.release(file);
                *count += 1;
                Ok(Answer::Done)
            }
        }
    }

    fn rename(&mut self, from: &[&str], to: &[&str], count: &mut u32) -> Result<Answer, &'static str> {
        let ((old, way), new) = (from.split_last().ok_or("no-name")?, to.last().ok_or("no-name")?);
        let dir = self.walk(way, count)?;
        *count += 1;
        let node = *self.entries(dir).get(*old).ok_or("no-name")?;
        if old == new {
            return Ok(Answer::Done);
        }
        *count += 3;
        match (self.entries(dir).get(*new).copied(), node) {
            (Some(_), Node::Dir(_)) => return Err("exists"),
            (Some(Node::Dir(_)), Node::File(_)) => return Err("is-dir"),
            (Some(Node::File(replaced)), Node::File(_)) => {
                self.release(replaced);
                *count += 1;
            }
            (None, _) => (),
        }
        self.entries(dir).remove(*old);
        self.entries(dir).insert(new.to_string(), node);
        Ok(Answer::Done)
    }
}

fn names(path: &str) -> Vec<&str> {
    path.split('/').filter(|name| !name.is_empty()).collect()
}

fn write_node(out: &mut impl Write, node: Node) -> io::Result<()> {
    match node {
        Node::Dir(id) => write!(out, " dir {id}"),
        Node::File(id) => write!(out, " file {id}"),
    }
}

fn write_answer(out: &mut impl Write, store: &Store, answer: Result<Answer, &str>) -> io::Result<()> {
    match answer {
        Ok(Answer::Done) => write!(out, " ok"),
        Ok(Answer::Node(node)) => {
            write!(out, " ok")?;
            write_node(out, node)
        }
        Ok(Answer::Entries(dir)) => {
            write!(out, " ok {}", store.dirs[&dir].len())?;
            store.dirs[&dir].iter().try_for_each(|(name, node)| {
                write!(out, " {name}")?;
                write_node(out, *node)
            })
        }
        Err(why) => write!(out, " {why}"),
    }
}

fn main() -> io::Result<()> {
    let mut script = String::new();
    io::stdin().read_to_string(&mut script)?;
    let mut out = BufWriter::with_capacity(65_536, io::stdout());
    let mut store = Store::new();
    let mut clients: HashMap<&str, Client> = HashMap::new();
    for line in script.lines().skip(1) {
        let mut words = line.split(' ');
        let (Some(name), Some(verb), Some(path)) = (words.next(), words.next(), words.next()) else { break };
        let number = clients.len() as u64 + 1;
        let client = clients.entry(name).or_insert(Client { number, commands: 0, made: 0 });
        client.commands += 1;
        let path = names(path);
        let mut count = 0;
        let id = (client.number << 32) + client.made + 1;
        let answer = match verb {
            "look" => store.look(&path, &mut count),
            "list" => store.list(&path, &mut count),
            "create" => store.create(&path, id, &mut count),
            "mkdir" => store.mkdir(&path, id, &mut count),
            "delete" => store.delete(&path, &mut count),
            "rename" => store.rename(&path, &names(words.next().unwrap_or("/")), &mut count),
            _ => break,
        };
        if matches!(verb, "create" | "mkdir") && count as usize > path.len().saturating_sub(1) {
            client.made += 1;
        }
        write!(out, "{name} {} {count}", client.commands)?;
        write_answer(&mut out, &store, answer)?;
        out.write_all(b"\n")?;
    }
    out.write_all(b"end\n")?;
    out.flush()
}
