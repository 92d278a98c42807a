//! Calls of the library in another process, where the archive's code is for another processor.
//! Each thread has a process of its own. A request is a name, the six parameters and the
//! arguments; the reply is the answer and the slices that may be written.

use crate::case::Arg;
use std::cell::RefCell;
use std::io::{BufReader, BufWriter, Read, Write};
use std::process::{Child, ChildStdin, ChildStdout, Command, Stdio};

struct Link {
    _child: Child,
    to: BufWriter<ChildStdin>,
    from: BufReader<ChildStdout>,
}

thread_local!(static LINK: RefCell<Option<Link>> = const { RefCell::new(None) });

fn open() -> Link {
    let command = std::env::var("ORACLE_BRIDGE").expect("the command of the bridge");
    let mut words = command.lines();
    let mut child = Command::new(words.next().expect("an emulator")).args(words).stdin(Stdio::piped()).stdout(Stdio::piped()).spawn().expect("the bridge starts");
    let to = BufWriter::with_capacity(1 << 16, child.stdin.take().unwrap());
    let from = BufReader::with_capacity(1 << 16, child.stdout.take().unwrap());
    Link { _child: child, to, from }
}

/// Sends a request and reads the reply by `read`.
fn ask<T>(name: &str, p: &[u32; 6], body: &[u8], read: impl FnOnce(&mut dyn Read) -> std::io::Result<T>) -> T {
    LINK.with(|link| {
        let mut link = link.borrow_mut();
        let link = link.get_or_insert_with(open);
        let mut head = (name.len() as u64).to_le_bytes().to_vec();
        head.extend(name.as_bytes());
        p.iter().for_each(|x| head.extend(x.to_le_bytes()));
        link.to.write_all(&head).and_then(|_| link.to.write_all(body)).and_then(|_| link.to.flush()).expect("the bridge takes a call");
        read(&mut link.from).unwrap_or_else(|e| panic!("the bridge ended in {name}: {e}"))
    })
}

fn bytes_of(arg: &Arg, body: &mut Vec<u8>) {
    match arg {
        Arg::Num(x) => body.extend(x.to_le_bytes()),
        Arg::Turn(d) => body.extend(d.to_bits().to_le_bytes()),
        _ => body.extend((arg.len() as u64).to_le_bytes()),
    }
    match arg {
        Arg::Words(v) => v.iter().for_each(|x| body.extend(x.to_le_bytes())),
        Arg::Bytes(v) => body.extend(v),
        Arg::Longs(v) => v.iter().for_each(|x| body.extend(x.to_le_bytes())),
        Arg::Doubles(v) => v.iter().for_each(|x| body.extend(x.to_bits().to_le_bytes())),
        _ => {}
    }
}

fn back(arg: &mut Arg, from: &mut dyn Read) -> std::io::Result<()> {
    match arg {
        Arg::Words(v) => *v = words(from, v.len())?,
        Arg::Bytes(v) => from.read_exact(v)?,
        Arg::Longs(v) => *v = longs(from, v.len())?,
        _ => {}
    }
    Ok(())
}

fn words(from: &mut dyn Read, len: usize) -> std::io::Result<Vec<u32>> {
    let mut bytes = vec![0; 4 * len];
    from.read_exact(&mut bytes)?;
    Ok(bytes.chunks(4).map(|b| u32::from_le_bytes(b.try_into().unwrap())).collect())
}

fn longs(from: &mut dyn Read, len: usize) -> std::io::Result<Vec<u64>> {
    let mut bytes = vec![0; 8 * len];
    from.read_exact(&mut bytes)?;
    Ok(bytes.chunks(8).map(|b| u64::from_le_bytes(b.try_into().unwrap())).collect())
}

/// One call, by the kinds that its declaration names.
pub fn call(name: &str, kinds: &[&str], p: &[u32; 6], args: &mut [Arg]) -> u64 {
    let mut body = Vec::new();
    kinds.iter().zip(args.iter()).for_each(|(_, a)| bytes_of(a, &mut body));
    ask(name, p, &body, |from| {
        let answer = longs(from, 1)?[0];
        for (kind, arg) in kinds.iter().zip(args) {
            if kind.ends_with("_out") {
                back(arg, from)?;
            }
        }
        Ok(answer)
    })
}

fn listed(len: usize, items: impl Iterator<Item = u8>) -> Vec<u8> {
    let mut body = (len as u64).to_le_bytes().to_vec();
    body.extend(items);
    body
}

pub fn params(list: &[[u32; 6]]) -> Vec<u64> {
    let body = listed(list.len(), list.iter().flatten().flat_map(|x| x.to_le_bytes()));
    ask("params", &[0; 6], &body, |from| longs(from, list.len()))
}

pub fn words_of(list: &[f64]) -> Vec<u32> {
    let body = listed(list.len(), list.iter().flat_map(|x| x.to_bits().to_le_bytes()));
    ask("words", &[0; 6], &body, |from| words(from, list.len()))
}

pub fn doubles_of(list: &[u32]) -> Vec<f64> {
    let body = listed(list.len(), list.iter().flat_map(|x| x.to_le_bytes()));
    ask("doubles", &[0; 6], &body, |from| Ok(longs(from, list.len())?.into_iter().map(f64::from_bits).collect()))
}
