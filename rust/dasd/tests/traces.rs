//! A trace by looks: the lines of a read and of a search, as they stand in rows/data/traces.rows, over main storage that is the subsystem's
//! and that is lent; and what is refused.

use dasd::{Address, Answer, ChannelSet, Condition, DriveModel, Event, Fault, LentSubsystem, Moment, Subsystem, Trace};

const DRIVE: Address = Address(0x190);

// Search ID Equal for record 0 of the track, Transfer In Channel back to it, and Read Data of record 0.
const WORDS: [u8; 24] = [0x31, 0, 2, 0, 0x40, 0, 0, 5, 8, 0, 1, 0, 0, 0, 0, 0, 6, 0, 3, 0, 0, 0, 0, 8];

const LINES: &str = "\
SIO 190 CC 0, started
 000100 31 Search ID Equal            5 <000200 0000000000   R0 0000000000 KL 0 DL 8 equal        SM CE DE skips one
        leaves a credit: R0, whose ID was found equal
        takes the credit away: R0, whose ID was found equal
 000110 06 Read Data                  8 >000300 000000000000 R0 0000000000 KL 0 DL 8              CE DE    left 0
";

fn filled(storage: &mut [u8]) {
    storage[0x48..0x4C].copy_from_slice(&[0, 0, 1, 0]);
    storage[0x100..0x118].copy_from_slice(&WORDS);
}

#[test]
fn a_program_is_traced_by_looks() {
    let (mut disks, mut trace, mut lines) = (Subsystem::new(65536, ChannelSet::of(&[1])).unwrap(), Trace::new(1), String::new());
    disks.attach_new(DRIVE, DriveModel::D2311, 1).unwrap();
    filled(disks.storage());
    assert_eq!(disks.react_traced(&mut trace, &Event::Sio(DRIVE), &mut lines), Ok(Answer::Sio(DRIVE, Condition::Zero)));
    let mut second = (disks.try_clone().unwrap(), trace.clone(), lines.clone());
    for (disks, trace, lines) in [(&mut disks, &mut trace, &mut lines), (&mut second.0, &mut second.1, &mut second.2)] {
        assert_eq!(disks.react_traced(trace, &Event::Step(4), lines), Ok(Answer::Step(4)));
        *lines = lines.replace("STEP 4\n", "");
        let Ok(Answer::Run(units)) = disks.react_traced(trace, &Event::Run(1000), lines) else { panic!("no run") };
        assert!(units < 1000 && matches!(disks.react_traced(trace, &Event::Interrupt, lines), Ok(Answer::Interrupt(Some(_)))));
        assert_eq!(*lines, format!("{LINES}RUN {units}\nINT 190 CE DE; last word 000110; residual count 0; key 0\n"));
    }
}

#[test]
fn main_storage_is_lent() {
    let (mut bytes, keys, mut trace) = (vec![0; 65536], [0; 32], Trace::new(1));
    let mut disks = LentSubsystem::lent(65536, ChannelSet::of(&[1])).unwrap();
    disks.attach_new(DRIVE, DriveModel::D2311, 1).unwrap();
    filled(&mut bytes);
    let mut lines = String::from(trace.look_lent(&mut disks, &mut bytes, &keys, Moment::BeforeSio(DRIVE)).unwrap());
    let started = Answer::Sio(DRIVE, disks.sio(&mut bytes, &keys, DRIVE).unwrap());
    lines += trace.look_lent(&mut disks, &mut bytes, &keys, Moment::Behind(&started)).unwrap();
    while disks.step(&mut bytes, &keys, 1, 1).unwrap() == 1 {
        lines += trace.look_lent(&mut disks, &mut bytes, &keys, Moment::Unit).unwrap();
    }
    assert_eq!(lines, LINES);
    assert_eq!(trace.look_lent(&mut disks, &mut bytes, &keys[1..], Moment::Unit), Err(Fault::BadBlocks));
}

#[test]
fn refusals() {
    let mut disks = Subsystem::new(65536, ChannelSet::of(&[1])).unwrap();
    assert_eq!(Trace::new(2).look(&mut disks, Moment::Unit), Err(Fault::NoChannel));
    assert_eq!(Trace::new(1).look(&mut disks, Moment::Behind(&Answer::Step(65536))), Err(Fault::BadMoment));
    assert_eq!(Trace::new(1).look(&mut disks, Moment::Behind(&Answer::Store(true))), Ok(""));
    assert_eq!(Trace::new(1).look(&mut disks, Moment::Behind(&Answer::Arrive(DRIVE, false))), Ok("ARRIVE 190: no arm was in motion\n"));
    assert_eq!(Trace::new(1).look(&mut disks, Moment::End), Ok(""));
    assert_eq!(disks.lend().1.look(&mut Trace::new(1), Moment::Behind(&Answer::Interrupt(None))), Ok("INT none\n"));
}
