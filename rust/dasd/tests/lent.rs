//! Main storage that each call is lent.

use dasd::{Address, ChannelSet, Condition, DriveModel, Fault, LentSubsystem, SubchannelView, Until};

const DRIVE: Address = Address(0x190);
const RECORD_0: [u8; 16] = [0, 0, 0, 0, 0, 0, 0, 8, 0, 0, 0, 0, 0, 0, 0, 0];

// Channels, and main storage with a program at 100 that reads record 0 to 200 with the key 1.
fn made() -> (LentSubsystem, Vec<u8>, Vec<u8>) {
    let mut disks = LentSubsystem::lent(65536, ChannelSet::of(&[1])).unwrap();
    disks.attach_new(DRIVE, DriveModel::D2314, 2).unwrap();
    let (mut bytes, mut keys) = (vec![0; 65536], vec![0; 32]);
    bytes[0x48..0x4C].copy_from_slice(&[0x10, 0, 1, 0]);
    bytes[0x100..0x108].copy_from_slice(&[0x16, 0, 2, 0, 0x20, 0, 0, 16]);
    keys[0] = 1;
    (disks, bytes, keys)
}

#[test]
fn a_record_is_read_wherever_storage_is() {
    let (mut disks, mut bytes, keys) = made();
    assert_eq!(disks.sio(&mut bytes, &keys, DRIVE), Ok(Condition::Zero));
    assert_eq!((disks.tio(&mut bytes, &keys, DRIVE), disks.tch(DRIVE)), (Ok(Condition::Two), Condition::Two));
    assert_eq!(disks.step(&mut bytes, &keys, 1, 2), Ok(2));
    let mut subchannel = SubchannelView::Working(0x90, false);
    while subchannel == SubchannelView::Working(0x90, false) {
        let other = bytes.clone();
        bytes.fill(0xA5);
        bytes = other;
        let ran = disks.run_on(&mut bytes, &keys, 1, 1).unwrap();
        assert_eq!(ran.units, 1);
        subchannel = ran.subchannel;
    }
    assert_eq!((subchannel, disks.interrupt(&mut bytes, &keys, ChannelSet::of(&[2]))), (SubchannelView::Pending(0x90), Ok(None)));
    let (from, csw) = disks.interrupt(&mut bytes, &keys, ChannelSet::ALL).unwrap().unwrap();
    assert_eq!((from, csw.status.unit, csw.status.channel, csw.key), (DRIVE, 0x0C, 0, 1));
    assert_eq!((&bytes[0x200..0x210], bytes[0x44]), (&RECORD_0[..], 0x0C));
    assert_eq!(disks.hio(&mut bytes, &keys, DRIVE).map(|it| it.code()), Ok(1));
    assert_eq!((disks.reset(1), disks.file(DRIVE, 0).unwrap().bytes.len()), (Ok(None), 512 + 2 * 20 * 7680));
}

#[test]
fn a_copy_goes_its_own_way() {
    let (mut disks, mut bytes, keys) = made();
    assert_eq!((disks.sio(&mut bytes, &keys, DRIVE), disks.step(&mut bytes, &keys, 1, 5)), (Ok(Condition::Zero), Ok(5)));
    let (mut second, mut others) = (disks.try_clone().unwrap(), bytes.clone());
    assert_eq!(second.run_on(&mut others, &keys, 1, 1000).unwrap().subchannel, SubchannelView::Pending(0x90));
    assert_ne!(bytes, others);
    assert_eq!(disks.run_on(&mut bytes, &keys, 1, 1000).unwrap().subchannel, SubchannelView::Pending(0x90));
    let (one, other) = (disks.interrupt(&mut bytes, &keys, ChannelSet::ALL), second.interrupt(&mut others, &keys, ChannelSet::ALL));
    assert_eq!((one, bytes), (other, others));
}

#[test]
fn keys_are_asked() {
    for (key, program, stores) in [(1, 1, true), (2, 1, false), (2, 0, true), (0x11, 1, false), (0xFF, 15, false), (0xFF, 0, true)] {
        let (mut disks, mut bytes, mut keys) = made();
        (keys[0], bytes[0x48]) = (key, program << 4);
        assert_eq!(disks.sio(&mut bytes, &keys, DRIVE), Ok(Condition::Zero));
        disks.run_on(&mut bytes, &keys, 1, 1000).unwrap();
        let (_, csw) = disks.interrupt(&mut bytes, &keys, ChannelSet::ALL).unwrap().unwrap();
        assert_eq!((bytes[0x200..0x210] == RECORD_0, csw.status.channel), (stores, if stores { 0 } else { 0x10 }));
    }
}

#[test]
fn a_program_runs_until_something_happens() {
    let (mut disks, mut bytes, keys) = made();
    assert_eq!(disks.sio(&mut bytes, &keys, DRIVE), Ok(Condition::Zero));
    let ran = disks.run_until(&mut bytes, &keys, 1, 5, Until { asked: true, ..Until::NOTHING }).unwrap();
    assert_eq!((ran.units, ran.range, ran.stopped), (5, Some((0x200, 0x204)), Until::NOTHING));
    let ran = disks.run_until(&mut bytes, &keys, 1, 1000, Until::NOTHING).unwrap();
    assert_eq!((ran.bytes, ran.range, ran.subchannel), (11, Some((0x205, 0x20F)), SubchannelView::Pending(0x90)));
    assert_eq!(disks.run_until(&mut bytes, &keys, 3, 1, Until::NOTHING), Err(Fault::NoChannel));
}

#[test]
fn refusals() {
    let (mut disks, mut bytes, keys) = made();
    let before = bytes.clone();
    let (mut large, many) = (vec![0; 65536 + 2048], vec![0; 65536]);
    let each = [
        (0, 0, Fault::BadSize),
        (2048, 1, Fault::BadSize),
        (65535, 32, Fault::BadSize),
        (65536, 0, Fault::BadBlocks),
        (65536, 31, Fault::BadBlocks),
        (65536, 65536, Fault::BadBlocks),
        (4096, 2, Fault::OtherSize),
        (65536 + 2048, 33, Fault::OtherSize),
    ];
    for (size, blocks, fault) in each {
        let (storage, keys) = (&mut large[..size], &many[..blocks]);
        assert_eq!((disks.sio(storage, keys, DRIVE).err(), disks.tio(storage, keys, DRIVE).err()), (Some(fault), Some(fault)));
        assert_eq!((disks.hio(storage, keys, DRIVE).err(), disks.step(storage, keys, 1, 1)), (Some(fault), Err(fault)));
        assert_eq!((disks.run_on(storage, keys, 1, 1), disks.run_until(storage, keys, 1, 1, Until::NOTHING)), (Err(fault), Err(fault)));
        assert_eq!(disks.interrupt(storage, keys, ChannelSet::ALL), Err(fault));
    }
    assert!(large.iter().all(|byte| *byte == 0));
    assert_eq!((disks.run_on(&mut bytes, &keys, 3, 1), disks.tch(DRIVE), bytes == before), (Err(Fault::NoChannel), Condition::Zero, true));
    assert_eq!(LentSubsystem::lent(1000, ChannelSet::of(&[1])).err(), Some(Fault::BadSize));
    assert_eq!(LentSubsystem::lent(4096, ChannelSet::of(&[])).err(), Some(Fault::BadChannels));
}

#[test]
fn it_goes_to_another_thread() {
    let (mut disks, mut bytes, keys) = made();
    std::thread::spawn(move || assert_eq!(disks.tio(&mut bytes, &keys, DRIVE), Ok(Condition::Zero))).join().unwrap();
}
