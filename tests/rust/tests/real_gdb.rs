//! Traces as gdb saved them: the library and the second reader agree on them, and with what gdb reads in them.

use std::collections::HashMap;
use std::fs;
use std::io::ErrorKind;
use tufakpeni_tests::answers::SECOND;
use tufakpeni_tests::c::{Block, Settings};
use tufakpeni_tests::compare::tables::agrees;
use tufakpeni_tests::compare::Comparer;
use tufakpeni_tests::letters::Frames;
use tufakpeni_tests::library::LIBRARY;
use tufakpeni_tests::make::Random;
use tufakpeni_tests::reader::{fields, Reader, Record};

const FOLDER: &str = concat!(env!("CARGO_MANIFEST_DIR"), "/../real/gdb");

/// A saved trace: its byte order, and the number of its frames or its refusal.
struct Saved {
    name: &'static str,
    order: u8,
    frames: Result<usize, u8>,
}

const fn saved(name: &'static str, order: u8, frames: Result<usize, u8>) -> Saved {
    Saved { name, order, frames }
}

/// Three are refused: the stub broke a frame of circular, frames of raw have the registers twice, and in zeronum frames
/// stand behind a head of number 0.
const SAVED: [Saved; 17] = [
    saved("badmem", 0, Ok(3)),
    saved("bare", 0, Ok(3)),
    saved("circular", 0, Err(8)),
    saved("empty", 0, Ok(0)),
    saved("full", 0, Ok(119)),
    saved("i386", 0, Ok(5)),
    saved("mem", 0, Ok(3)),
    saved("passcount", 0, Ok(2)),
    saved("raw", 0, Err(24)),
    saved("regs", 0, Ok(3)),
    saved("resave", 0, Ok(0)),
    saved("s390x", 1, Ok(6)),
    saved("s390x-empty", 1, Ok(0)),
    saved("step", 0, Ok(10)),
    saved("tsv", 0, Ok(3)),
    saved("tworegs-merged", 0, Ok(2)),
    saved("zeronum", 0, Err(18)),
];

impl Saved {
    fn bytes(&self) -> Vec<u8> {
        let path = format!("{FOLDER}/{}.tf", self.name);
        fs::read(&path).unwrap_or_else(|error| panic!("{path}: {error}"))
    }

    /// Whether it ends in the end mark, as all do but the one that gdb saved again from a file.
    fn marked(&self) -> bool {
        self.name != "resave"
    }

    /// gdb's lines of this sort about the frames; it has none of registers where no frame shows any.
    fn read_by_gdb(&self, sort: &str) -> Vec<String> {
        let path = format!("{FOLDER}/expected/{}.{sort}.json", self.name);
        let text = match fs::read_to_string(&path) {
            Ok(text) => text,
            Err(error) if sort == "regs" && error.kind() == ErrorKind::NotFound => String::new(),
            Err(error) => panic!("{path}: {error}"),
        };
        text.lines().filter(|line| line.starts_with("{\"frame\"")).map(str::to_string).collect()
    }
}

#[test]
fn every_saved_trace_is_listed() {
    let names = fs::read_dir(FOLDER).expect("the folder").map(|entry| entry.expect("an entry").file_name());
    let traces = names.filter(|name| name.to_string_lossy().ends_with(".tf")).count();
    assert_eq!(traces, SAVED.len());
}

#[test]
fn library_and_second_reader_agree() {
    let random = &mut Random::new(1);
    let mut comparer = Comparer::thorough(&LIBRARY);
    for saved in &SAVED {
        let bytes = saved.bytes();
        for (order, base) in [(0, 16), (1, 16), (0, 10), (1, 10), (saved.order, 8)] {
            let compared = comparer.trace(random, Settings { order, base }, &bytes, &bytes);
            compared.unwrap_or_else(|difference| panic!("{}: {difference:?}", saved.name));
        }
    }
    println!("gdb's traces: {} files, {} calls compared, no difference", SAVED.len(), comparer.calls);
}

/// Of the refused traces the refusal of each frame by its number, 0 where it is answered; the last is that of every
/// number from there on.
const FRAMES_OF_REFUSED: [(&str, &[u8]); 3] =
    [("circular", &[0, 0, 0, 0, 0, 8, 18]), ("raw", &[24, 0, 24, 0, 24, 0, 0, 12]), ("zeronum", &[18])];

impl Saved {
    /// The same of any: of an accepted one each frame is answered.
    fn frame_refusals(&self) -> Vec<u8> {
        if let Ok(count) = self.frames {
            return [vec![0; count], vec![12]].concat();
        }
        let (_, told) = FRAMES_OF_REFUSED.iter().find(|(name, _)| *name == self.name).expect("a refused trace");
        told.to_vec()
    }
}

/// By every number that a frame has, and by numbers past them.
#[test]
fn frames_by_their_numbers() {
    let mut answered = 0;
    for saved in &SAVED {
        let (bytes, settings, told) = (saved.bytes(), (LIBRARY.default_settings)(saved.order), saved.frame_refusals());
        let (count, behind) = (told.len(), told[told.len() - 1]);
        let past = [count, count + 1, 1 << 63, usize::MAX].map(|n| (n, behind));
        for (n, refusal) in told.into_iter().enumerate().chain(past) {
            let [library, second] = [LIBRARY, SECOND].map(|reader| (reader.frame_place)(settings, &bytes, n));
            assert_eq!(library, second, "{}: frame {n}", saved.name);
            assert_eq!(library.refusal, refusal, "{}: frame {n}", saved.name);
            assert_eq!(library.heads, if refusal == 0 { n + 1 } else { 0 }, "{}: frame {n}", saved.name);
            answered += usize::from(refusal == 0);
        }
    }
    println!("gdb's traces: {answered} frames by their numbers");
}

/// In base 16, the default, and in base 10, where each has an R line with a letter in it.
#[test]
fn each_form_has_its_refusal() {
    for saved in &SAVED {
        let (name, bytes, settings) = (saved.name, saved.bytes(), (LIBRARY.default_settings)(saved.order));
        let count = (LIBRARY.frame_count)(settings, &bytes);
        let frames = if count.refusal == 0 { Ok(count.count) } else { Err(count.refusal) };
        assert_eq!(frames, saved.frames, "{name}");
        let mark = (LIBRARY.end_mark)(settings, &bytes);
        let marked = if mark.refusal == 0 { Ok(mark.marked == 1) } else { Err(mark.refusal) };
        assert_eq!(marked, saved.frames.map(|_| saved.marked()), "{name}");
        assert_eq!((LIBRARY.frame_count)(Settings { base: 10, ..settings }, &bytes).refusal, 5, "{name}");
    }
}

/// A trace that gdb reads to its end.
struct Checked<'s> {
    reader: &'s Reader,
    saved: &'s Saved,
    settings: Settings,
    bytes: Vec<u8>,
    /// The variables' numbers by their names.
    variables: HashMap<String, u32>,
}

impl<'s> Checked<'s> {
    fn new(reader: &'s Reader, saved: &'s Saved) -> Self {
        let settings = (reader.default_settings)(saved.order);
        let bytes = if saved.name == "raw" { with_one_block(settings, &saved.bytes()) } else { saved.bytes() };
        let lines = (0..).map(|j| (reader.line_place)(settings, &bytes, j)).take_while(|line| line.refusal == 0);
        let variables = lines.filter_map(|line| variable(&bytes[line.place..line.place + line.length])).collect();
        Checked { reader, saved, settings, bytes, variables }
    }

    fn blocks(&self, n: usize) -> impl DoubleEndedIterator<Item = Block> {
        let blocks = (0..).map(|k| (self.reader.block_record)(self.settings, &self.bytes, n, k));
        blocks.take_while(|block| block.refusal == 0).collect::<Vec<_>>().into_iter()
    }

    /// The byte at an address, by the memory question.
    fn byte(&self, n: usize, address: u64) -> u8 {
        let part = (self.reader.memory_place)(self.settings, &self.bytes, n, address);
        assert_eq!(part.refusal, 0, "{}: frame {n}, address {address}", self.saved.name);
        self.bytes[part.place]
    }

    /// Holds frame n to gdb's line about it.
    fn frame(&self, n: usize, table: &[Record], line: &str) {
        let told = format!("{}: {line}", self.saved.name);
        assert_eq!(fields(&table[n]).tracepoint.to_string(), between(line, "\"tp\": ", ","), "{told}");
        for [address, length, bytes] in memory(line) {
            let address: u64 = address.parse().expect("an address");
            let length: u64 = length.parse().expect("a length");
            let read: String = (0..length).map(|i| format!("{:02x}", self.byte(n, address + i))).collect();
            assert_eq!(read, bytes.trim_matches('"'), "{told}");
        }
        let values: HashMap<_, _> = values(line).into_iter().collect();
        assert!(values.keys().all(|name| self.variables.contains_key(*name)), "{told}");
        for (name, &number) in &self.variables {
            let answer = (self.reader.variable)(self.settings, &self.bytes, n, number);
            let shown = (answer.refusal == 0).then(|| answer.value.to_string());
            assert_eq!(shown.as_deref(), values.get(&name[..]).copied(), "{told}");
        }
    }
}

impl Checked<'_> {
    /// Holds the registers of every frame that has any to gdb's lines about them, and its record to them; how many have.
    fn registers(&self, table: &[Record]) -> usize {
        let lines = self.saved.read_by_gdb("regs");
        let shown: HashMap<_, _> = lines.iter().map(|line| (between(line, "\"frame\": ", ","), line)).collect();
        let mut compared = 0;
        for (n, record) in table.iter().enumerate() {
            let part = (self.reader.registers_place)(self.settings, &self.bytes, n);
            assert!(agrees(&fields(record), &part), "{}: frame {n}", self.saved.name);
            // Without a register block gdb shows a program counter, which it takes from the tracepoint.
            if self.blocks(n).all(|block| block.letter != b'R') {
                assert_eq!(part.refusal, 12, "{}: frame {n}", self.saved.name);
                continue;
            }
            let bytes = &self.bytes[part.place..part.place + part.length];
            let expected = registers(shown[&n.to_string()[..]]);
            assert_eq!((part.refusal, bytes), (0, &expected[..]), "{}: frame {n}", self.saved.name);
            compared += 1;
        }
        compared
    }
}

/// A little-endian trace with each frame's earliest register block, and no second one.
fn with_one_block(settings: Settings, file: &[u8]) -> Vec<u8> {
    let Frames { opening, frames, tail, .. } = Frames::read(settings, file).expect("a trace");
    let mut bytes = opening.to_vec();
    for frame in &frames {
        let further: Vec<_> = frame.registers().into_iter().skip(1).collect();
        let blocks = frame.blocks.iter().enumerate().filter(|(k, _)| !further.contains(k));
        let data: Vec<u8> = blocks.flat_map(|(_, block)| block.to_vec()).collect();
        bytes.extend_from_slice(&frame.head[..2]);
        bytes.extend_from_slice(&(data.len() as u32).to_le_bytes());
        bytes.extend_from_slice(&data);
    }
    [&bytes, tail].concat()
}

/// The name and number that a line `tsv NUMBER:VALUE:BUILTIN:NAME` gives, all of them hexadecimal.
fn variable(line: &[u8]) -> Option<(String, u32)> {
    let line = std::str::from_utf8(line).ok()?.strip_prefix("tsv ")?;
    let mut parts = line.split(':');
    let number = u32::from_str_radix(parts.next()?, 16).ok()?;
    let name = parts.nth(2)?;
    let name = String::from_utf8(from_hex(name)).ok()?;
    Some((format!("${name}"), number))
}

fn between<'t>(text: &'t str, start: &str, end: &str) -> &'t str {
    let (_, rest) = text.split_once(start).unwrap_or_else(|| panic!("no {start} in {text}"));
    rest.split_once(end).unwrap_or_else(|| panic!("no {end} in {rest}")).0
}

fn from_hex(text: &str) -> Vec<u8> {
    let pairs = (0..text.len()).step_by(2).map(|i| u8::from_str_radix(&text[i..i + 2], 16));
    pairs.collect::<Result<_, _>>().expect("bytes in hexadecimal")
}

/// The bytes of all registers in gdb's line, where each is name, offset and bytes.
fn registers(line: &str) -> Vec<u8> {
    let parts = |register: &str| {
        let [_, offset, contents] = register.split(", ").collect::<Vec<_>>().try_into().expect("three parts");
        (offset.parse().expect("an offset"), from_hex(contents.trim_matches('"')))
    };
    let mut registers: Vec<_> = between(line, "\"regs\": [[", "]]").split("], [").map(parts).collect();
    registers.sort_unstable();
    registers.into_iter().fold(Vec::new(), |before: Vec<u8>, (offset, contents)| {
        assert_eq!(before.len(), offset, "a gap between registers: {line}");
        [before, contents].concat()
    })
}

/// The stretches of memory in gdb's line: address, length and bytes.
fn memory(line: &str) -> Vec<[&str; 3]> {
    let stretches = between(line, "\"memory\": [", "], \"tsv\"").trim_matches(['[', ']']);
    let stretches = stretches.split("], [").filter(|stretch| !stretch.is_empty());
    stretches.map(|stretch| stretch.split(", ").collect::<Vec<_>>().try_into().expect("three parts")).collect()
}

/// The variables in gdb's line: name and value.
fn values(line: &str) -> Vec<(&str, &str)> {
    let values = between(line, "\"tsv\": {", "}").split(", ").filter(|value| !value.is_empty());
    values
        .map(|value| value.split_once(": ").expect("a name and a value"))
        .map(|(n, v)| (n.trim_matches('"'), v))
        .collect()
}

fn reads_as_gdb(reader: &Reader) {
    // gdb takes the number 0 for its end mark, and reads the broken trace up to the fault. Registers that stand twice in a
    // frame of raw are the same bytes twice, so it is read with one block of them.
    let read = SAVED.iter().filter(|saved| !["zeronum", "circular"].contains(&saved.name));
    let (mut frames, mut with_registers) = (0, 0);
    for saved in read {
        let checked = Checked::new(reader, saved);
        let lines = saved.read_by_gdb("gdb");
        let mut table = vec![[0; 4]; lines.len()];
        let count = (reader.frame_table)(checked.settings, &checked.bytes, &mut table);
        assert_eq!((count.refusal, count.count), (0, lines.len()), "{}", saved.name);
        for (n, line) in lines.iter().enumerate() {
            checked.frame(n, &table, line);
        }
        frames += lines.len();
        with_registers += checked.registers(&table);
    }
    println!("gdb's traces: {frames} frames as gdb reads them, {with_registers} of them with registers");
    assert!(frames > 100 && with_registers > 30);
}

#[test]
fn the_second_reader_reads_as_gdb() {
    reads_as_gdb(&SECOND);
}

#[test]
fn the_library_reads_as_gdb() {
    reads_as_gdb(&LIBRARY);
}
