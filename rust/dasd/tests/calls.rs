//! Each call once, and what the library refuses.

use dasd::{check, version, Address, Arm, Changed, ChannelSet, Subsystem, Condition, DriveModel, Fault, HeldFiles, Phase, Progress, SubchannelView, Until};

const DRIVE: Address = Address(0x190);

fn made() -> Subsystem {
    let mut disks = Subsystem::new(65536, ChannelSet::of(&[1])).unwrap();
    disks.attach_new(DRIVE, DriveModel::D2314, 2).unwrap();
    disks.storage()[0x48..0x4C].copy_from_slice(&[0, 0, 1, 0]);
    disks.storage()[0x100..0x108].copy_from_slice(&[0x16, 0, 2, 0, 0x20, 0, 0, 16]);
    disks
}

#[test]
fn version_is_that_of_the_crate() {
    let (major, minor, patch) = version();
    assert_eq!(format!("{major}.{minor}.{patch}"), env!("CARGO_PKG_VERSION"));
}

#[test]
fn a_record_is_read() {
    let mut disks = made();
    assert_eq!(disks.sio(DRIVE), Condition::Zero);
    assert_eq!((disks.tio(DRIVE), disks.tch(DRIVE)), (Condition::Two, Condition::Two));
    assert_eq!(disks.file(DRIVE, 0).unwrap_err(), Fault::ProgramRuns);
    assert_eq!(disks.step(1, 3), Ok(3));
    let ran = disks.run_on(1, 1000).unwrap();
    assert!(ran.units < 1000 && ran.subchannel == SubchannelView::Pending(0x90));
    assert!(disks.is_pending(ChannelSet::ALL) && !disks.is_pending(ChannelSet::of(&[2])));
    assert_eq!(disks.detach(DRIVE), Err(Fault::EndingPends));
    let (from, csw) = disks.interrupt(ChannelSet::ALL).unwrap();
    assert_eq!((from, csw.status.unit, csw.address, csw.count), (DRIVE, 0x0C, 0x108, 0));
    assert_eq!(disks.interrupt(ChannelSet::ALL), None);
    assert_eq!(disks.storage()[0x200..0x210], [0, 0, 0, 0, 0, 0, 0, 8, 0, 0, 0, 0, 0, 0, 0, 0]);
    assert_eq!((disks.hio(DRIVE).code(), disks.sio(Address(0x390)).code(), disks.reset(1)), (1, 3, Ok(None)));
}

#[test]
fn a_program_is_shown_while_it_runs() {
    let mut disks = made();
    assert_eq!((disks.program(1), disks.registers(1), disks.sio(DRIVE)), (Ok(None), Ok(None), Condition::Zero));
    assert_eq!(disks.step(1, 3), Ok(3)); // three of its bytes
    let program = disks.program(1).unwrap().unwrap();
    assert_eq!((program.device, program.phase, program.last, program.next), (0x90, Phase::Moves, 0x100, 0x108));
    assert_eq!((program.code, program.flags, program.address, program.count), (0x16, 0x20, 0x200, 16));
    assert_eq!((program.place, program.left, program.key, program.asked), (0x203, 13, 0, false));
    let registers = disks.registers(1).unwrap().unwrap();
    assert_eq!((registers.area, registers.lap, registers.credit), (None, 0, None));
    assert_eq!((registers.mask, registers.mask_set, registers.sense), (0, false, [0; 6]));
    assert_eq!((disks.program(2), disks.registers(2)), (Err(Fault::NoChannel), Err(Fault::NoChannel)));
    disks.run_on(1, 1000).unwrap();
    assert_eq!((disks.program(1), disks.registers(1)), (Ok(None), Ok(None)));
}

#[test]
fn a_program_runs_until_something_happens() {
    let mut disks = made();
    // Seek to cylinder 1, and Read R0 to 200, which asks
    disks.poke(0x100, &[7, 0, 3, 0, 0x40, 0, 0, 6, 0x16, 0, 2, 0, 0x28, 0, 0, 16]).unwrap();
    disks.poke(0x300, &[0, 0, 0, 1, 0, 0]).unwrap();
    assert_eq!((disks.sio(DRIVE), disks.run_until(2, 1, Until::NOTHING)), (Condition::Zero, Err(Fault::NoChannel)));
    let moves = Until { cylinder: true, track: true, ..Until::NOTHING };
    let before = Progress {
        units: 7,
        bytes: 6,
        indexes: 0,
        cylinders: 1,
        stored: 0,
        range: None,
        subchannel: SubchannelView::Working(0x90, false),
        stopped: moves,
    };
    assert_eq!(disks.run_until(1, 1000, moves), Ok(before));
    let (_, mut calls) = disks.lend();
    let asks = Until { asked: true, ..Until::NOTHING };
    let ran = calls.run_until(1, 1000, asks).unwrap();
    assert_eq!((ran.units, ran.stopped, ran.subchannel), (1, asks, SubchannelView::Working(0x90, true)));
    let ran = disks.run_until(1, 1000, Until::NOTHING).unwrap();
    assert_eq!((ran.units, ran.bytes, ran.stored, ran.range), (17, 16, 16, Some((0x200, 0x20F))));
    assert_eq!((ran.subchannel, ran.stopped), (SubchannelView::Pending(0x90), Until::NOTHING));
}

#[test]
fn a_copy_goes_its_own_way() {
    let mut disks = made();
    assert_eq!((disks.sio(DRIVE), disks.step(1, 5)), (Condition::Zero, Ok(5)));
    let mut second = disks.try_clone().unwrap();
    assert_eq!(second.run_on(1, 1000).unwrap().subchannel, SubchannelView::Pending(0x90));
    assert_eq!(disks.channel(1).unwrap().subchannel, SubchannelView::Working(0x90, false));
    assert_ne!(disks.storage(), second.storage());
    assert_eq!(disks.run_on(1, 1000).unwrap().subchannel, SubchannelView::Pending(0x90));
    assert_eq!(disks.interrupt(ChannelSet::ALL), second.interrupt(ChannelSet::ALL));
    assert_eq!(disks.storage(), second.storage());
    assert_eq!(disks.file(DRIVE, 0).unwrap().bytes, second.file(DRIVE, 0).unwrap().bytes);
    drop(disks);
    assert_eq!((second.tio(DRIVE), second.storage()[0x207]), (Condition::Zero, 8));
}

#[test]
fn a_state_is_saved_and_restored() {
    let (mut disks, mut others) = (made(), made());
    disks.storage()[0x100..0x110].copy_from_slice(b"\x07\0\x02\0\x60\0\0\x06\xFF\0\x02\0\x20\0\0\x01"); // Seek, and no command
    disks.storage()[0x200..0x206].copy_from_slice(&[0, 0, 0, 1, 0, 3]);
    assert_eq!((disks.sio(DRIVE), disks.save()), (Condition::Zero, Err(Fault::ProgramRuns)));
    disks.run_on(1, 1000).unwrap();
    let saved = disks.save().unwrap();
    assert_eq!((&saved[..9], &saved[9 + 75 + 11..9 + 75 + 19]), (&b"DASDSAVE\x01"[..], &[1, 0x90, 0, 1, 0, 3, 0x80, 0][..]));
    assert_eq!((others.restore(&saved), others.save()), (Ok(()), Ok(saved)));
    assert_eq!(others.drive(DRIVE), disks.drive(DRIVE));
    assert_eq!(others.interrupt(ChannelSet::ALL), disks.interrupt(ChannelSet::ALL));
    for (bytes, why) in [(&b""[..], Fault::NoSavedState), (&saved[1..], Fault::NoSavedState), (&saved[..537], Fault::SavedLength)] {
        assert_eq!(others.restore(bytes), Err(why));
    }
}

#[test]
fn files_are_taken_over_and_given_back() {
    let (mut disks, other) = (made(), Address(0x191));
    let image = disks.file(DRIVE, 0).unwrap().bytes.to_vec();
    let mut files = HeldFiles::new(&[image.len()]).unwrap();
    assert!(files.file(0).unwrap().iter().all(|byte| *byte == 0));
    files.file(0).unwrap().copy_from_slice(&image);
    let place = files.file(0).unwrap().as_ptr();
    let (fault, files) = disks.attach_files(DRIVE, files).unwrap_err();
    assert_eq!(fault, Fault::AddressTaken);
    disks.attach_files(other, files).unwrap();
    assert_eq!((disks.file(other, 0).unwrap().bytes.as_ptr(), disks.file(other, 0).unwrap().bytes), (place, &image[..]));
    let mut files = disks.detach_files(other).unwrap();
    assert_eq!((files.file(0).unwrap().as_ptr(), files.file(1).unwrap_err()), (place, Fault::NoFile));
    assert_eq!((disks.detach_files(other).unwrap_err(), HeldFiles::new(&[]).unwrap_err()), (Fault::NoDrive, Fault::NoFiles));
}

#[test]
fn a_volume_goes_from_one_to_another() {
    let mut disks = made();
    let image = disks.file(DRIVE, 0).unwrap().bytes.to_vec();
    assert_eq!((check(&[&image]), check(&[&image[1..]]), check(&[])), (Ok(()), Err(Fault::NotCkdP370), Err(Fault::NoFiles)));
    assert_eq!(disks.attach(Address(0x191), &[&image]), Ok(()));
    assert_eq!(disks.attach(Address(0x192), &[&image[..image.len() - 1]]), Err(Fault::Length));
    assert_eq!(disks.file(Address(0x191), 0).unwrap().changes, 0);
    assert_eq!(disks.file(Address(0x191), 1).unwrap_err(), Fault::NoFile);
    assert_eq!((disks.detach(Address(0x191)), disks.detach(Address(0x191))), (Ok(()), Err(Fault::NoDrive)));
}

#[test]
fn a_file_is_kept_by_its_changed_tracks() {
    let mut disks = made();
    let mut kept = disks.file(DRIVE, 0).unwrap().bytes.to_vec();
    let since = disks.file(DRIVE, 0).unwrap().changes;
    assert_eq!(disks.changed(DRIVE, 0, since).unwrap(), Changed { tracks: vec![], changes: since });
    assert_eq!(disks.changed(DRIVE, 0, 0).unwrap().tracks.len(), 40); // those of the new volume
    let storage = disks.storage(); // Search Identifier of record 0, and Write Count, Key and Data behind it
    storage[0x100..0x118].copy_from_slice(&[0x31, 0, 2, 0, 0x40, 0, 0, 5, 8, 0, 1, 0, 0, 0, 0, 0, 0x1D, 0, 2, 8, 0x20, 0, 0, 9]);
    storage[0x200..0x211].copy_from_slice(&[0, 0, 0, 0, 0, 0, 0, 0, 0, 0, 0, 0, 1, 0, 0, 1, 0xC1]);
    assert_eq!((disks.sio(DRIVE), disks.changed(DRIVE, 0, since).err()), (Condition::Zero, Some(Fault::ProgramRuns)));
    disks.run_on(1, 1000).unwrap();
    let shown = disks.changed(DRIVE, 0, since).unwrap();
    let tracks: Vec<_> = shown.tracks.iter().map(|it| (it.track, it.at, it.bytes.len())).collect();
    assert_eq!((tracks, shown.changes > since), (vec![(0, 512, 7680)], true));
    shown.tracks.iter().for_each(|it| kept[it.at..it.at + it.bytes.len()].copy_from_slice(it.bytes));
    let since = shown.changes;
    assert_eq!(disks.changed(DRIVE, 0, since).unwrap().tracks, []);
    let file = disks.file(DRIVE, 0).unwrap();
    assert!(file.changes == since && file.bytes == kept);
    assert_eq!(disks.changed(Address(0x390), 0, 0).err(), Some(Fault::NoChannel));
    assert_eq!(disks.changed(DRIVE, 1, 0).err(), Some(Fault::NoFile));
}

#[test]
fn an_arm_moves() {
    let mut disks = made();
    disks.storage()[0x100..0x108].copy_from_slice(&[7, 0, 2, 0, 0x20, 0, 0, 6]);
    disks.storage()[0x200..0x206].copy_from_slice(&[0, 0, 0, 1, 0, 3]);
    assert_eq!(disks.sio(DRIVE), Condition::Zero);
    disks.run_on(1, 1000).unwrap();
    disks.interrupt(ChannelSet::ALL).unwrap();
    let drive = disks.drive(DRIVE).unwrap();
    assert_eq!((drive.model, drive.cylinders, drive.cylinder, drive.head, drive.arm), (DriveModel::D2314, 2, 1, 3, Arm::InMotion));
    assert_eq!(disks.detach(DRIVE), Err(Fault::DeviceEndOwed));
    assert!(disks.arrive(DRIVE) && !disks.arrive(DRIVE));
    let view = disks.channel(1).unwrap();
    assert_eq!((view.subchannel, view.drives), (SubchannelView::Idle, vec![(0x90, Arm::Arrived)]));
}

#[test]
fn refusals() {
    let mut disks = made();
    assert_eq!((disks.peek(65536, &mut [0]), disks.poke(65535, &[1, 2])), (Err(Fault::OutsideStorage), Err(Fault::OutsideStorage)));
    assert_eq!((disks.set_key(2048, 7), disks.key(4095), disks.set_key(0, 16)), (Ok(()), Ok(7), Err(Fault::BadKey)));
    assert_eq!(disks.attach_new(DRIVE, DriveModel::D2311, 1), Err(Fault::AddressTaken));
    assert_eq!(disks.attach_new(Address(0x191), DriveModel::D2311, 0), Err(Fault::NoCylinders));
    assert_eq!(disks.attach(Address(0x191), &[&[0u8][..]; 9]), Err(Fault::TooManyFiles));
    assert_eq!((disks.step(3, 1), disks.reset(7), disks.channel(0).err()), (Err(Fault::NoChannel), Err(Fault::NoChannel), Some(Fault::NoChannel)));
    assert_eq!(Subsystem::new(1000, ChannelSet::of(&[1])).err(), Some(Fault::BadSize));
    assert_eq!(Subsystem::new(4096, ChannelSet::of(&[])).err(), Some(Fault::BadChannels));
    assert_eq!(Subsystem::new(4096, ChannelSet::of(&[1, 7])).err(), Some(Fault::BadChannels));
    let fault: Box<dyn std::error::Error> = Fault::Full.into();
    assert_eq!((fault.to_string(), Fault::Full.code()), ("eight drives are attached to this channel".to_string(), -13));
}

#[test]
fn several_channels_share_storage() {
    let (mut disks, low, high) = (Subsystem::new(65536, ChannelSet::of(&[1, 2])).unwrap(), DRIVE, Address(0x290));
    disks.attach_new(low, DriveModel::D2314, 2).unwrap();
    disks.attach_new(high, DriveModel::D2311, 1).unwrap();
    assert_eq!(disks.attach_new(Address(0x390), DriveModel::D2311, 1), Err(Fault::NoChannel));
    disks.storage()[0x48..0x4C].copy_from_slice(&[0, 0, 1, 0]);
    disks.storage()[0x100..0x108].copy_from_slice(&[0x16, 0, 2, 0, 0x20, 0, 0, 16]);
    assert_eq!((disks.sio(high), disks.sio(low), disks.tch(Address(0x300))), (Condition::Zero, Condition::Zero, Condition::Three));
    disks.run_on(2, 1000).unwrap();
    assert_eq!((disks.tch(low), disks.tch(high), disks.interrupt(ChannelSet::of(&[0, 1]))), (Condition::Two, Condition::Stored(()), None));
    disks.run_on(1, 1000).unwrap();
    let addresses: Vec<_> = std::iter::from_fn(|| disks.interrupt(ChannelSet::ALL)).map(|(from, _)| from).collect();
    assert_eq!(addresses, [low, high]);
    assert_eq!((disks.sio(low), disks.sio(high), disks.reset(1)), (Condition::Zero, Condition::Zero, Ok(None)));
    assert_eq!((disks.tch(low), disks.tch(high)), (Condition::Zero, Condition::Two));
}

#[test]
fn storage_and_calls_are_lent_side_by_side() {
    let mut disks = made();
    let (storage, mut calls) = disks.lend();
    let store = |at: usize, bytes: &[u8]| storage[at..].iter().zip(bytes).for_each(|(cell, byte)| cell.set(*byte));
    assert_eq!((storage.len(), calls.sio(DRIVE), calls.tio(DRIVE)), (65536, Condition::Zero, Condition::Two));
    store(0x200, &[0xFF; 16]); // while the program runs
    assert_eq!((calls.step(1, 3), calls.file(DRIVE, 0).err()), (Ok(3), Some(Fault::ProgramRuns)));
    assert_eq!(calls.run_on(1, 1000).unwrap().subchannel, SubchannelView::Pending(0x90));
    let read: Vec<u8> = storage[0x200..0x210].iter().map(|cell| cell.get()).collect();
    assert_eq!(read, [0, 0, 0, 0, 0, 0, 0, 8, 0, 0, 0, 0, 0, 0, 0, 0]);
    let (from, csw) = calls.interrupt(ChannelSet::ALL).unwrap();
    assert_eq!((from, csw.status.unit, storage[0x44].get(), calls.csw()), (DRIVE, 0x0C, 0x0C, csw));
    store(0x100, &[7, 0, 2, 0, 0x20, 0, 0, 6]); // Seek, which the channel finds in storage
    store(0x200, &[0, 0, 0, 1, 0, 3]);
    assert_eq!((calls.sio(DRIVE), calls.run_on(1, 1000).is_ok(), calls.interrupt(ChannelSet::ALL).is_some()), (Condition::Zero, true, true));
    assert_eq!((calls.drive(DRIVE).unwrap().cylinder, calls.arrive(DRIVE), calls.is_pending(ChannelSet::ALL)), (1, true, true));
    assert_eq!((calls.poke(0x300, &[9]), storage[0x300].get(), calls.set_key(2048, 7), calls.key(4095)), (Ok(()), 9, Ok(()), Ok(7)));
    let image = calls.file(DRIVE, 0).unwrap().bytes.to_vec();
    assert_eq!((calls.attach(Address(0x191), &[&image]), calls.detach(Address(0x191))), (Ok(()), Ok(())));
    assert_eq!((calls.reset(1), calls.channel(1).unwrap().drives.len(), calls.tch(DRIVE)), (Ok(None), 1, Condition::Zero));
    assert_eq!(disks.storage()[0x300], 9);
}

#[test]
fn a_subsystem_goes_to_another_thread() {
    let mut disks = made();
    std::thread::spawn(move || assert_eq!(disks.tio(DRIVE), Condition::Zero)).join().unwrap();
}
