//! What `bench/throughput/measure` holds `taps` against: the same work over the blocking sockets of Rust's std.
//!
//! `plain talk KIND WHERE FILE` sends each line of the file as a message in a frame of two length bytes, from one thread of the
//! program to the other, and prints each as `taps run` prints what it heard. `plain carry KIND WHERE PIECES` sends so many pieces of
//! 65,536 bytes and hears each before the next one, in one thread; `plain stream KIND WHERE PIECES` sends them in a thread of
//! their own. KIND is `tcp`, at an address and port, or `unix`, at a path.

use std::io::{self, BufReader, BufWriter, Read, Write};
use std::net::{TcpListener, TcpStream};
use std::os::unix::net::{UnixListener, UnixStream};
use std::{env, fs, thread};

const PIECE: usize = 65536;

trait End: Read + Write + Send + 'static {}
impl<T: Read + Write + Send + 'static> End for T {}

/// Both ends of a new connection, the one that connected first. The file of a Unix path is removed.
fn pair(kind: &str, place: &str) -> io::Result<(Box<dyn End>, Box<dyn End>)> {
    if kind == "unix" {
        let listener = UnixListener::bind(place)?;
        let near = UnixStream::connect(place)?;
        let far = listener.accept()?.0;
        fs::remove_file(place)?;
        Ok((Box::new(near), Box::new(far)))
    } else {
        let listener = TcpListener::bind(place)?;
        let near = TcpStream::connect(place)?;
        Ok((Box::new(near), Box::new(listener.accept()?.0)))
    }
}

fn send(near: Box<dyn End>, bodies: &str) -> io::Result<()> {
    let mut near = BufWriter::new(near);
    for body in bodies.lines() {
        near.write_all(&(body.len() as u16).to_be_bytes())?;
        near.write_all(body.as_bytes())?;
    }
    near.flush()
}

fn print(out: &mut impl Write, place: usize, body: &[u8]) -> io::Result<()> {
    let mut line = format!("received 1 {place} ").into_bytes();
    for byte in body {
        line.push(b"0123456789abcdef"[(byte >> 4) as usize]);
        line.push(b"0123456789abcdef"[(byte & 15) as usize]);
    }
    line.push(b'\n');
    out.write_all(&line)
}

fn talk(near: Box<dyn End>, far: Box<dyn End>, file: &str) -> io::Result<()> {
    let bodies = fs::read_to_string(file)?;
    let count = bodies.lines().count();
    let sender = thread::spawn(move || send(near, &bodies));
    let mut far = BufReader::new(far);
    let mut out = BufWriter::new(io::stdout());
    for place in 0..count {
        let mut head = [0; 2];
        far.read_exact(&mut head)?;
        let mut body = vec![0; u16::from_be_bytes(head) as usize];
        far.read_exact(&mut body)?;
        print(&mut out, place, &body)?;
    }
    sender.join().expect("the sender ended by a panic")?;
    out.flush()
}

fn carry(mut near: Box<dyn End>, mut far: Box<dyn End>, pieces: usize) -> io::Result<()> {
    let piece = vec![7; PIECE];
    let mut out = vec![0; PIECE];
    for _ in 0..pieces {
        near.write_all(&piece)?;
        far.read_exact(&mut out)?;
    }
    Ok(())
}

fn stream(mut near: Box<dyn End>, mut far: Box<dyn End>, pieces: usize) -> io::Result<()> {
    let sender = thread::spawn(move || {
        let piece = vec![7; PIECE];
        (0..pieces).try_for_each(|_| near.write_all(&piece))
    });
    let mut out = vec![0; PIECE];
    for _ in 0..pieces {
        far.read_exact(&mut out)?;
    }
    sender.join().expect("the sender ended by a panic")
}

fn main() -> io::Result<()> {
    let words: Vec<String> = env::args().collect();
    let (near, far) = pair(&words[2], &words[3])?;
    let pieces = || words[4].parse().expect("PIECES is a number");
    match words[1].as_str() {
        "talk" => talk(near, far, &words[4]),
        "carry" => carry(near, far, pieces()),
        _ => stream(near, far, pieces()),
    }
}
