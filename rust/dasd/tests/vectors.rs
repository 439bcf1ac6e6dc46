//! Plays the vectors of the folder that DASD_VECTORS names; their lines are described in conformance/FORMAT.md. The digests
//! of images are those of `sha256sum`. Main storage is the subsystem's, or is lent; and behind each event either goes on as it is, or a
//! copy of it does, or it is saved and restored.

use dasd::{Address, Answer, ChannelSet, Condition, Csw, DriveModel, Event, LentSubsystem, Status, Subsystem};
use std::fs;
use std::io::Write;
use std::path::Path;
use std::process::{Command, Stdio};

// Decks.

fn number(word: &str, radix: u32, most: usize) -> Option<u32> {
    let is_spelled = (1..=most).contains(&word.len()) && word.chars().all(|digit| digit.is_digit(radix));
    is_spelled.then(|| u32::from_str_radix(word, radix).ok()).flatten()
}

fn bytes_of(digits: &str) -> Option<Vec<u8>> {
    let pairs = digits.as_bytes().chunks(2);
    pairs.map(|pair| u8::from_str_radix(std::str::from_utf8(pair).ok()?, 16).ok().filter(|_| pair.len() == 2)).collect()
}

fn address(words: &[&str]) -> Option<Address> {
    let [word] = words else { return None };
    number(word, 16, 3).filter(|_| word.len() == 3).map(|n| Address(n as u16))
}

fn stored(words: &[&str]) -> Option<Event> {
    let (at, digits) = words.split_first()?;
    let bytes = bytes_of(&digits.concat()).filter(|bytes| (1..=128).contains(&bytes.len()))?;
    Some(Event::Store(number(at, 16, 6)?, bytes))
}

fn event_of(name: &str, words: &[&str]) -> Result<Event, &'static str> {
    let event = match (name, words) {
        ("SIO", _) => address(words).map(Event::Sio),
        ("TIO", _) => address(words).map(Event::Tio),
        ("HIO", _) => address(words).map(Event::Hio),
        ("ARRIVE", _) => address(words).map(Event::Arrive),
        ("TCH", []) => Some(Event::Tch),
        ("INT", []) => Some(Event::Interrupt),
        ("RESET", []) => Some(Event::Reset),
        ("STEP", [units]) => number(units, 10, 5).filter(|n| *n <= 65535).map(Event::Step),
        ("RUN", []) => Some(Event::Run(16_777_216)),
        ("RUN", [units]) => number(units, 10, 10).filter(|n| *n > 0).map(Event::Run),
        ("STORE", _) => stored(words),
        ("KEY", [at, key]) => number(at, 16, 6).zip(number(key, 16, 1)).map(|(at, key)| Event::Key(at, key as u8)),
        ("SHOW", [at, count]) => number(at, 16, 6).zip(number(count, 10, 5)).filter(|(_, n)| (1..=32).contains(n)).map(|(at, n)| Event::Show(at, n as usize)),
        ("TCH" | "INT" | "RESET" | "STEP" | "RUN" | "KEY" | "SHOW", _) => None,
        _ => return Err("unknown event"),
    };
    event.ok_or("bad operand")
}

fn event(line: &[u8]) -> Result<Option<Event>, &'static str> {
    let line = line.strip_suffix(b"\r").unwrap_or(line);
    if line.len() > 512 {
        return Err("line too long");
    }
    let line: String = line.to_ascii_uppercase().into_iter().map(char::from).collect();
    let words: Vec<&str> = line.split([' ', '\t']).filter(|word| !word.is_empty()).collect();
    match words.split_first() {
        Some((name, words)) if !name.starts_with('*') => event_of(name, words).map(Some),
        _ => Ok(None),
    }
}

// Answers.

fn digits(bytes: &[u8]) -> String {
    bytes.iter().map(|byte| format!("{byte:02X}")).collect()
}

fn condition<T>(condition: &Condition<T>, stored: impl Fn(&T) -> String) -> String {
    match condition {
        Condition::Stored(it) => format!("CC 1{}", stored(it)),
        other => format!("CC {}", other.code()),
    }
}

fn status(status: &Status) -> String {
    format!(" {}", digits(&[status.unit, status.channel]))
}

fn csw(csw: &Csw) -> String {
    let bytes = csw.to_bytes();
    format!(" {} {}", digits(&bytes[..4]), digits(&bytes[4..]))
}

fn line(answer: &Answer) -> String {
    let kept = |done: &bool| if *done { "OK" } else { "OUTSIDE" };
    match answer {
        Answer::Sio(at, it) => format!("SIO {at} {}", condition(it, status)),
        Answer::Tio(at, it) => format!("TIO {at} {}", condition(it, csw)),
        Answer::Hio(at, it) => format!("HIO {at} {}", condition(it, status)),
        Answer::Tch(it) => format!("TCH {}", condition(it, |()| String::new())),
        Answer::Step(did) => format!("STEP {did}"),
        Answer::Run(did) => format!("RUN {did}"),
        Answer::Arrive(at, arrived) => format!("ARRIVE {at} {}", if *arrived { "YES" } else { "NO" }),
        Answer::Interrupt(None) => "INT NONE".into(),
        Answer::Interrupt(Some((at, it))) => format!("INT {at}{}", csw(it)),
        Answer::Reset(None) => "RESET CLEAN".into(),
        Answer::Reset(Some((at, cylinder, head))) => format!("RESET UNSAVED {at} {cylinder:04X} {head:04X}"),
        Answer::Store(done) => format!("STORE {}", kept(done)),
        Answer::Key(done) => format!("KEY {}", kept(done)),
        Answer::Show(_, None) => "SHOW OUTSIDE".into(),
        Answer::Show(at, Some(bytes)) => format!("SHOW {at:06X} {}", digits(bytes)),
    }
}

// Who plays an event.

/// Channels with their drives, over main storage that is theirs or the player's.
trait Player: Sized {
    type Storage;

    fn new(storage_bytes: u32, channel: u8) -> Self;
    fn disks(&mut self) -> &mut Subsystem<Self::Storage>;
    fn react(&mut self, channel: u8, event: &Event) -> Answer;
    fn copied(&mut self) -> Self;
}

impl Player for Subsystem {
    type Storage = dasd::Owned;

    fn new(storage_bytes: u32, channel: u8) -> Self {
        Subsystem::new(storage_bytes, ChannelSet::of(&[channel])).unwrap()
    }

    fn disks(&mut self) -> &mut Subsystem {
        self
    }

    fn react(&mut self, channel: u8, event: &Event) -> Answer {
        Subsystem::react(self, channel, event).unwrap()
    }

    fn copied(&mut self) -> Self {
        self.try_clone().unwrap()
    }
}

struct Lending {
    disks: LentSubsystem,
    bytes: Vec<u8>,
    keys: Vec<u8>,
}

impl Lending {
    fn within(&mut self, at: u32, count: usize) -> Option<&mut [u8]> {
        self.bytes.get_mut(at as usize..)?.get_mut(..count)
    }

    fn store(&mut self, at: u32, new: &[u8]) -> bool {
        self.within(at, new.len()).map(|old| old.copy_from_slice(new)).is_some()
    }

    fn set_key(&mut self, at: u32, key: u8) -> bool {
        self.keys.get_mut(at as usize / 2048).map(|old| *old = key).is_some()
    }
}

impl Player for Lending {
    type Storage = dasd::Lent;

    fn new(storage_bytes: u32, channel: u8) -> Self {
        let disks = LentSubsystem::lent(storage_bytes, ChannelSet::of(&[channel])).unwrap();
        Lending { disks, bytes: vec![0; storage_bytes as usize], keys: vec![0; storage_bytes as usize / 2048] }
    }

    fn disks(&mut self) -> &mut LentSubsystem {
        &mut self.disks
    }

    fn react(&mut self, channel: u8, event: &Event) -> Answer {
        let (disks, bytes, keys) = (&mut self.disks, &mut self.bytes, &self.keys);
        match event {
            Event::Sio(at) => Answer::Sio(*at, disks.sio(bytes, keys, *at).unwrap()),
            Event::Tio(at) => Answer::Tio(*at, disks.tio(bytes, keys, *at).unwrap()),
            Event::Hio(at) => Answer::Hio(*at, disks.hio(bytes, keys, *at).unwrap()),
            Event::Tch => Answer::Tch(disks.tch(Address(u16::from(channel) << 8))),
            Event::Step(units) => Answer::Step(disks.step(bytes, keys, channel, *units).unwrap()),
            Event::Run(units) => Answer::Run(disks.run_on(bytes, keys, channel, *units).unwrap().units),
            Event::Arrive(at) => Answer::Arrive(*at, disks.arrive(*at)),
            Event::Interrupt => Answer::Interrupt(disks.interrupt(bytes, keys, ChannelSet::of(&[channel])).unwrap()),
            Event::Reset => Answer::Reset(disks.reset(channel).unwrap()),
            Event::Store(at, new) => Answer::Store(self.store(*at, new)),
            Event::Key(at, key) => Answer::Key(self.set_key(*at, *key)),
            Event::Show(at, count) => Answer::Show(*at, self.within(*at, *count).map(|bytes| bytes.to_vec())),
        }
    }

    fn copied(&mut self) -> Self {
        Lending { disks: self.disks.try_clone().unwrap(), bytes: self.bytes.clone(), keys: self.keys.clone() }
    }
}

// Vectors.

fn digest(bytes: &[u8]) -> String {
    let mut sum = Command::new("sha256sum").stdin(Stdio::piped()).stdout(Stdio::piped()).spawn().expect("sha256sum runs");
    sum.stdin.take().unwrap().write_all(bytes).unwrap();
    let output = sum.wait_with_output().unwrap();
    String::from_utf8_lossy(&output.stdout)[..64].to_string()
}

fn attach<Storage>(disks: &mut Subsystem<Storage>, channel: u8, volume: &str, folder: &Path) {
    let (unit, source) = volume.split_once(' ').unwrap();
    let address = Address(u16::from(channel) << 8 | u16::from_str_radix(unit, 16).unwrap());
    match source.split(' ').collect::<Vec<_>>()[..] {
        ["new", model, cylinders] => {
            let model = if model == "2311" { DriveModel::D2311 } else { DriveModel::D2314 };
            disks.attach_new(address, model, cylinders.parse().unwrap()).unwrap();
        }
        _ => {
            let files: Vec<_> = source.split(' ').map(|name| fs::read(folder.join(name)).unwrap()).collect();
            disks.attach(address, &files.iter().map(Vec::as_slice).collect::<Vec<_>>()).unwrap();
        }
    }
}

/// All files of a drive's volume, one behind the other.
fn whole<Storage>(disks: &mut Subsystem<Storage>, address: Address) -> Vec<u8> {
    let mut bytes = Vec::new();
    for place in 0.. {
        let Ok(file) = disks.file(address, place) else { break };
        bytes.extend_from_slice(file.bytes);
    }
    bytes
}

/// What is done behind each event of a deck.
#[derive(Clone, Copy, PartialEq)]
enum Between {
    Nothing,
    /// A copy goes on.
    Copies,
    /// Where no program runs, the channel is saved and reset, its volumes are taken off and put on anew, and what was saved is restored.
    Restores,
}

fn restored<Storage>(disks: &mut Subsystem<Storage>, channel: u8, drives: &[Address]) {
    let saved = match disks.save() {
        Err(dasd::Fault::ProgramRuns) => return,
        saved => saved.unwrap(),
    };
    assert_eq!(disks.reset(channel).unwrap(), None);
    for &drive in drives {
        let mut files = Vec::new();
        while let Ok(file) = disks.file(drive, files.len() as u8) {
            files.push(file.bytes.to_vec());
        }
        disks.detach(drive).unwrap();
        disks.attach(drive, &files.iter().map(Vec::as_slice).collect::<Vec<_>>()).unwrap();
    }
    disks.restore(&saved).unwrap();
}

fn address_of(channel: u8, volume: &str) -> Address {
    Address(u16::from(channel) << 8 | u16::from_str_radix(volume.split_once(' ').unwrap().0, 16).unwrap())
}

/// How a vector comes out otherwise than it must.
fn difference<P: Player>(lines: &[(&str, &str)], folder: &Path, between: Between) -> Option<String> {
    let all = |word: &'static str| lines.iter().filter(move |line| line.0 == word).map(|line| line.1);
    let channel: u8 = all("channel").next()?.parse().ok()?;
    let mut player = P::new(all("storage").next()?.parse().ok()?, channel);
    all("volume").for_each(|volume| attach(player.disks(), channel, volume, folder));
    let drives: Vec<_> = all("volume").map(|volume| address_of(channel, volume)).collect();
    let deck = lines.iter().filter_map(|(word, rest)| match *word {
        ">" => Some(rest.as_bytes().to_vec()),
        ">hex" | ">end" => bytes_of(rest),
        _ => None,
    });
    let events: Result<Vec<_>, _> = deck.enumerate().map(|(n, line)| event(&line).map_err(|fault| format!("line {}: {fault}", n + 1))).collect();
    let fault = events.as_ref().err().cloned();
    if fault.as_deref() != all("fault").next() {
        return Some(format!("fault {fault:?}"));
    }
    let mut answers = Vec::new();
    for event in events.unwrap_or_default().iter().flatten() {
        answers.push(line(&player.react(channel, event)));
        match between {
            Between::Nothing => {}
            Between::Copies => player = player.copied(),
            Between::Restores => restored(player.disks(), channel, &drives),
        }
    }
    if let Some((answer, wanted)) = answers.iter().zip(all("<")).find(|(answer, wanted)| answer.as_str() != *wanted) {
        return Some(format!("{answer}, not {wanted}"));
    }
    player.disks().reset(channel).unwrap();
    let wrong = all("image").find(|image| {
        let (unit, wanted) = image.split_once(" sha256 ").unwrap();
        let address = Address(u16::from(channel) << 8 | u16::from_str_radix(unit, 16).unwrap());
        digest(&whole(player.disks(), address)) != wanted
    });
    wrong.map(str::to_string).or_else(|| (answers.len() != all("<").count()).then(|| "another number of answers".into()))
}

fn all_come_out<P: Player>(how: &str, between: Between) {
    let Ok(folder) = std::env::var("DASD_VECTORS") else { return };
    let folder = Path::new(&folder);
    let (mut count, mut wrong) = (0, Vec::new());
    let mut paths: Vec<_> = fs::read_dir(folder).unwrap().map(|entry| entry.unwrap().path()).collect();
    paths.retain(|path| path.extension().is_some_and(|it| it == "vectors"));
    paths.sort();
    for path in paths {
        let group = path.file_stem().unwrap().to_string_lossy().into_owned();
        let text = fs::read_to_string(&path).unwrap();
        for vector in text.split("\nvector ").skip(1) {
            let (name, rest) = vector.split_once('\n').unwrap();
            let lines: Vec<_> = rest.lines().filter_map(|line| line.strip_prefix("  ")).map(|line| line.split_once(' ').unwrap_or((line, ""))).collect();
            count += 1;
            wrong.extend(difference::<P>(&lines, folder, between).map(|how| format!("{group} {name}: {how}")));
        }
    }
    println!("rust: {} of {count} vectors come out as they must{how}", count - wrong.len());
    assert!(wrong.is_empty(), "{wrong:#?}");
    assert!(count > 400);
}

#[test]
fn all_come_out_as_they_must() {
    all_come_out::<Subsystem>("", Between::Nothing);
}

#[test]
fn all_come_out_with_a_copy_behind_each_event() {
    all_come_out::<Subsystem>(", with a copy behind each event", Between::Copies);
}

#[test]
fn all_come_out_over_storage_that_is_lent() {
    all_come_out::<Lending>(" over storage that is lent", Between::Nothing);
}

#[test]
fn all_come_out_over_storage_that_is_lent_with_a_copy_behind_each_event() {
    all_come_out::<Lending>(" over storage that is lent, with a copy behind each event", Between::Copies);
}

#[test]
fn all_come_out_saved_and_restored_where_no_program_runs() {
    all_come_out::<Subsystem>(", saved and restored where no program runs", Between::Restores);
}

#[test]
fn all_come_out_over_storage_that_is_lent_saved_and_restored() {
    all_come_out::<Lending>(" over storage that is lent, saved and restored where no program runs", Between::Restores);
}
