//! The floors of `dev/bench-build`: the same frames to the same workers and the same files as worker_tool makes, with no
//! scheduling and no journal. Each source is read once and digested once.
//!
//! usage: bench-floor plain|fewest PROGRAM ACTIONS INPUTS WORKERS one|several|json        (in the list's folder)
//!
//! Action N has the inputs `flags/N` and `in/0` to `in/INPUTS-1`, and the output `out/N`. `plain` empties a room by a search,
//! looks whether each folder is there, and writes each file beside. `fewest` makes the fewest calls of the system by which
//! the room is still empty before each request and the output is looked at without following a link: what stands in the room
//! is known and removed by its name, behind a look at each folder, one search then finds what is left, and files of a room
//! are made new. Both write outputs beside and rename them.
use std::collections::HashMap;
use std::fs::{self, File};
use std::io::{BufRead, BufReader, Read, Write};
use std::path::Path;
use std::process::{Child, Command, Stdio};
use std::sync::Arc;

#[derive(Clone, Copy, PartialEq)]
enum Speech {
    One,
    Several,
    Json,
}

#[derive(Clone, Copy, PartialEq)]
enum Calls {
    Plain,
    Fewest,
}

/// How many requests a worker that takes several has at once.
const AT_ONCE: usize = 8;

/// The round constants of SHA-256, by FIPS 180-4.
const ROUNDS: [u32; 64] = [
    0x428a2f98, 0x71374491, 0xb5c0fbcf, 0xe9b5dba5, 0x3956c25b, 0x59f111f1, 0x923f82a4, 0xab1c5ed5, 0xd807aa98, 0x12835b01,
    0x243185be, 0x550c7dc3, 0x72be5d74, 0x80deb1fe, 0x9bdc06a7, 0xc19bf174, 0xe49b69c1, 0xefbe4786, 0x0fc19dc6, 0x240ca1cc,
    0x2de92c6f, 0x4a7484aa, 0x5cb0a9dc, 0x76f988da, 0x983e5152, 0xa831c66d, 0xb00327c8, 0xbf597fc7, 0xc6e00bf3, 0xd5a79147,
    0x06ca6351, 0x14292967, 0x27b70a85, 0x2e1b2138, 0x4d2c6dfc, 0x53380d13, 0x650a7354, 0x766a0abb, 0x81c2c92e, 0x92722c85,
    0xa2bfe8a1, 0xa81a664b, 0xc24b8b70, 0xc76c51a3, 0xd192e819, 0xd6990624, 0xf40e3585, 0x106aa070, 0x19a4c116, 0x1e376c08,
    0x2748774c, 0x34b0bcb5, 0x391c0cb3, 0x4ed8aa4a, 0x5b9cca4f, 0x682e6ff3, 0x748f82ee, 0x78a5636f, 0x84c87814, 0x8cc70208,
    0x90befffa, 0xa4506ceb, 0xbef9a3f7, 0xc67178f2,
];

const START: [u32; 8] =
    [0x6a09e667, 0xbb67ae85, 0x3c6ef372, 0xa54ff53a, 0x510e527f, 0x9b05688c, 0x1f83d9ab, 0x5be0cd19];

fn digest_block(state: &mut [u32; 8], block: &[u8]) {
    let mut words = [0u32; 64];
    for (word, bytes) in words.iter_mut().zip(block.chunks_exact(4)) {
        *word = u32::from_be_bytes(bytes.try_into().unwrap());
    }
    for at in 16..64 {
        let (near, far) = (words[at - 15], words[at - 2]);
        let low = near.rotate_right(7) ^ near.rotate_right(18) ^ (near >> 3);
        let high = far.rotate_right(17) ^ far.rotate_right(19) ^ (far >> 10);
        words[at] = words[at - 16].wrapping_add(low).wrapping_add(words[at - 7]).wrapping_add(high);
    }
    let [mut a, mut b, mut c, mut d, mut e, mut f, mut g, mut h] = *state;
    for (round, word) in ROUNDS.iter().zip(words) {
        let high = e.rotate_right(6) ^ e.rotate_right(11) ^ e.rotate_right(25);
        let first = h.wrapping_add(high).wrapping_add((e & f) ^ (!e & g)).wrapping_add(*round).wrapping_add(word);
        let low = a.rotate_right(2) ^ a.rotate_right(13) ^ a.rotate_right(22);
        let second = low.wrapping_add((a & b) ^ (a & c) ^ (b & c));
        (h, g, f, e, d, c, b, a) = (g, f, e, d.wrapping_add(first), c, b, a, first.wrapping_add(second));
    }
    for (old, new) in state.iter_mut().zip([a, b, c, d, e, f, g, h]) {
        *old = old.wrapping_add(new);
    }
}

/// The SHA-256 of bytes, in digits.
fn digest(bytes: &[u8]) -> String {
    let mut state = START;
    let blocks = bytes.chunks_exact(64);
    let mut end = blocks.remainder().to_vec();
    blocks.for_each(|block| digest_block(&mut state, block));
    end.push(128);
    end.resize((end.len() + 8).next_multiple_of(64) - 8, 0);
    end.extend_from_slice(&(8 * bytes.len() as u64).to_be_bytes());
    end.chunks_exact(64).for_each(|block| digest_block(&mut state, block));
    state.iter().map(|word| format!("{word:08x}")).collect()
}

fn put_number(out: &mut Vec<u8>, mut number: usize) {
    while number > 127 {
        out.push((number % 128 + 128) as u8);
        number /= 128;
    }
    out.push(number as u8);
}

fn put_span(out: &mut Vec<u8>, field: usize, bytes: &[u8]) {
    put_number(out, 8 * field + 2);
    put_number(out, bytes.len());
    out.extend_from_slice(bytes);
}

struct Source {
    path: String,
    content: Vec<u8>,
    digest: String,
}

/// All sources, each read once.
#[derive(Default)]
struct Sources(HashMap<String, Arc<Source>>);

impl Sources {
    fn get(&mut self, path: String) -> Arc<Source> {
        let read = || {
            let content = fs::read(&path).unwrap();
            Arc::new(Source { digest: digest(&content), path: path.clone(), content })
        };
        self.0.entry(path.clone()).or_insert_with(read).clone()
    }
}

struct Action {
    number: usize,
    words: Vec<String>,
    inputs: Vec<Arc<Source>>,
}

impl Action {
    fn read(sources: &mut Sources, number: usize, inputs: usize) -> Action {
        let paths = std::iter::once(format!("flags/{number}")).chain((0..inputs).map(|n| format!("in/{n}")));
        let inputs: Vec<_> = paths.map(|path| sources.get(path)).collect();
        let text = String::from_utf8(inputs[0].content.clone()).unwrap();
        Action { number, words: text.lines().map(str::to_string).collect(), inputs }
    }

    fn output(&self) -> String {
        format!("out/{}", self.number)
    }

    fn frame(&self, speech: Speech) -> Vec<u8> {
        match speech {
            Speech::Json => {
                let words: Vec<_> = self.words.iter().map(|word| format!("\"{word}\"")).collect();
                let files = self.inputs.iter().map(|it| format!("{{\"digest\":\"{}\",\"path\":\"{}\"}}", it.digest, it.path));
                let files: Vec<_> = files.collect();
                format!("{{\"arguments\":[{}],\"inputs\":[{}]}}\n", words.join(","), files.join(",")).into_bytes()
            }
            _ => self.message(speech),
        }
    }

    fn message(&self, speech: Speech) -> Vec<u8> {
        let mut message = Vec::new();
        self.words.iter().for_each(|word| put_span(&mut message, 1, word.as_bytes()));
        for source in &self.inputs {
            let mut input = Vec::new();
            put_span(&mut input, 1, source.path.as_bytes());
            put_span(&mut input, 2, source.digest.as_bytes());
            put_span(&mut message, 2, &input);
        }
        if speech == Speech::Several {
            put_number(&mut message, 24);
            put_number(&mut message, self.number + 1);
        }
        let mut frame = Vec::new();
        put_number(&mut frame, message.len());
        frame.extend(message);
        frame
    }
}

/// A worker's room, and what is known to stand in it.
struct Room {
    path: String,
    calls: Calls,
    folders: Vec<String>,
    files: Vec<String>,
}

impl Room {
    fn new(path: String, calls: Calls) -> Room {
        let _ = fs::remove_dir_all(&path);
        fs::create_dir_all(&path).unwrap();
        Room { path, calls, folders: Vec::new(), files: Vec::new() }
    }

    fn clear(&mut self) {
        if self.calls == Calls::Fewest {
            let are_folders = self.folders.iter().all(|it| fs::symlink_metadata(it).is_ok_and(|found| found.is_dir()));
            assert!(are_folders);
            self.files.drain(..).for_each(|it| fs::remove_file(it).unwrap());
            self.folders.drain(..).rev().for_each(|it| fs::remove_dir(it).unwrap());
        }
        for entry in fs::read_dir(&self.path).unwrap() {
            fs::remove_dir_all(entry.unwrap().path()).unwrap();
        }
    }

    fn folder(&mut self, path: &str) {
        let folder = format!("{}/{path}", self.path);
        if self.calls == Calls::Plain {
            fs::create_dir_all(folder).unwrap();
        } else if !self.folders.contains(&folder) {
            fs::create_dir(&folder).unwrap();
            self.folders.push(folder);
        }
    }

    fn put(&mut self, path: &str, content: &[u8]) {
        let file = format!("{}/{path}", self.path);
        if self.calls == Calls::Plain {
            return write_beside(&file, content);
        }
        let (folder, _) = path.rsplit_once('/').unwrap();
        self.folder(folder);
        match File::create_new(&file) {
            Ok(mut new) => {
                new.write_all(content).unwrap();
                self.files.push(file);
            }
            // It is there from a request before, whose room wasn't emptied.
            Err(_) => rename_to(&file, content),
        }
    }

    fn get(&mut self, path: &str) -> Vec<u8> {
        let file = format!("{}/{path}", self.path);
        if self.calls == Calls::Plain {
            return fs::read(file).unwrap();
        }
        let (folder, _) = file.rsplit_once('/').unwrap();
        let looks = [&self.path, folder, &file].map(|path| fs::symlink_metadata(path).unwrap());
        let mut content = vec![0; looks[2].len() as usize + 1];
        let count = File::open(&file).unwrap().read(&mut content).unwrap();
        content.truncate(count);
        self.files.push(file);
        content
    }
}

fn write_beside(path: &str, content: &[u8]) {
    let folder = Path::new(path).parent().unwrap();
    if !folder.exists() {
        fs::create_dir_all(folder).unwrap();
    }
    rename_to(path, content);
}

fn rename_to(path: &str, content: &[u8]) {
    let beside = format!("{path}.part");
    fs::write(&beside, content).unwrap();
    fs::rename(&beside, path).unwrap();
}

fn start(program: &str, room: &str, speech: Speech) -> Child {
    let words: &[&str] = if speech == Speech::Json { &["--json"] } else { &[] };
    let mut command = Command::new(program);
    command.args(words).arg("--persistent_worker").current_dir(room);
    command.stdin(Stdio::piped()).stdout(Stdio::piped()).spawn().unwrap()
}

fn read_answer(answers: &mut impl BufRead, speech: Speech) {
    if speech == Speech::Json {
        let mut line = String::new();
        answers.read_line(&mut line).unwrap();
        return;
    }
    let mut byte = [0];
    let (mut length, mut shift) = (0usize, 0);
    loop {
        answers.read_exact(&mut byte).unwrap();
        length |= ((byte[0] & 127) as usize) << shift;
        shift += 7;
        if byte[0] < 128 {
            break;
        }
    }
    answers.read_exact(&mut vec![0; length]).unwrap();
}

fn drive(program: &str, own: &[Action], mut room: Room, speech: Speech) {
    let mut child = start(program, &room.path, speech);
    let mut requests = child.stdin.take().unwrap();
    let mut answers = BufReader::new(child.stdout.take().unwrap());
    for group in own.chunks(if speech == Speech::Several { AT_ONCE } else { 1 }) {
        if speech != Speech::Several {
            room.clear();
        }
        for action in group {
            action.inputs.iter().for_each(|it| room.put(&it.path, &it.content));
            room.folder("out");
            requests.write_all(&action.frame(speech)).unwrap();
        }
        // A worker that takes several answers them in any order.
        group.iter().for_each(|_| read_answer(&mut answers, speech));
        for action in group {
            let content = room.get(&action.output());
            match room.calls {
                Calls::Plain => write_beside(&action.output(), &content),
                Calls::Fewest => rename_to(&action.output(), &content),
            }
        }
    }
    child.kill().unwrap();
    child.wait().unwrap();
}

fn main() {
    let words: Vec<String> = std::env::args().skip(1).collect();
    let [calls, program, actions, inputs, workers, speech] = words.as_slice() else {
        panic!("plain|fewest PROGRAM ACTIONS INPUTS WORKERS one|several|json");
    };
    let calls = if calls == "fewest" { Calls::Fewest } else { Calls::Plain };
    let speech = match speech.as_str() {
        "several" => Speech::Several,
        "json" => Speech::Json,
        _ => Speech::One,
    };
    let workers: usize = workers.parse().unwrap();
    let (actions, inputs): (usize, usize) = (actions.parse().unwrap(), inputs.parse().unwrap());
    let mut sources = Sources::default();
    let mut shares: Vec<Vec<Action>> = (0..workers).map(|_| Vec::new()).collect();
    (0..actions).for_each(|number| shares[number % workers].push(Action::read(&mut sources, number, inputs)));
    fs::create_dir_all("out").unwrap();
    std::thread::scope(|scope| {
        for (number, own) in shares.iter().enumerate() {
            let room = Room::new(format!(".floor_rooms/{number}"), calls);
            scope.spawn(move || drive(program, own, room, speech));
        }
    });
}
