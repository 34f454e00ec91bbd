//! The adapter in the shape of the emulator's bus.

mod common;

use std::cell::RefCell;
use std::rc::Rc;
use std::sync::atomic::{AtomicUsize, Ordering};
use std::sync::Arc;
use std::thread;

use biekkarul::bus::BusBoard;
use biekkarul::{Board, Mirroring, Mode, Refusal, SnapshotError, RAM_LENGTH};
use common::{data, image, kept, load, marked, Shifting, BOTH_MODES, MMC1, MMC3, NO_RAM, UXROM};

/// A cartridge on the bus, and the notices it has given.
fn on_bus(byte6: u8, prg: u8, chr: u8, mode: Mode) -> (BusBoard, Rc<RefCell<Vec<Mirroring>>>) {
    let mut cartridge = BusBoard::new(load(byte6, prg, chr, mode));
    let notices = Rc::new(RefCell::new(Vec::new()));
    let told = Rc::clone(&notices);
    cartridge.on_runtime_mirroring(Box::new(move |mirroring| {
        told.borrow_mut().push(*mirroring)
    }));
    (cartridge, notices)
}

#[test]
fn answers_are_the_boards() {
    for mode in BOTH_MODES {
        let mut board = load(MMC3 | 1, 2, 1, mode);
        let (mut cartridge, _) = on_bus(MMC3 | 1, 2, 1, mode);
        for (address, value) in [(0xC000, 1), (0xC001, 0), (0xE001, 0), (0x6123, 9)] {
            board.write(address, value).unwrap();
            cartridge.write8(value, address);
        }
        for address in [0x0000, 0x1FFF, 0x6123, 0x8000, 0xFFFF] {
            assert_eq!(Ok(cartridge.read8(address)), board.read(address));
        }
        for _ in 0..10 {
            assert_eq!(Ok(cartridge.irq()), board.clock());
            assert_eq!(cartridge.irq_line(), board.irq_line());
        }
        assert!(kept(cartridge.board()) == kept(&board));
        assert_eq!(cartridge.refusal(), None);
    }
}

/// Latch 1, reload and enable: the clocks of the first five that answer yes, and those after which the line is up.
#[test]
fn irqs_and_the_line() {
    for (mode, yes_at, up_at) in [
        (Mode::House, &[3, 5][..], &[][..]),
        (Mode::Board, &[2, 3, 4, 5], &[2, 3, 4, 5]),
    ] {
        let (mut cartridge, _) = on_bus(MMC3, 1, 1, mode);
        for (value, address) in [(1, 0xC000), (0, 0xC001), (0, 0xE001)] {
            cartridge.write8(value, address);
        }
        for clock in 1..=5 {
            assert_eq!(cartridge.irq(), yes_at.contains(&clock), "{mode} {clock}");
            let is_up = cartridge.irq_line();
            assert_eq!(is_up, up_at.contains(&clock), "{mode} {clock}");
        }
    }
}

/// A cartridge on the bus whose line is up.
fn with_line_up<I: AsRef<[u8]>>(board: Board<I>) -> BusBoard<I> {
    let mut cartridge = BusBoard::new(board);
    cartridge.write8(0, 0xE001);
    assert!(cartridge.irq() && cartridge.irq_line());
    cartridge
}

#[test]
fn the_line_is_lowered_on_the_bus() {
    let mut cartridge = with_line_up(load(MMC3, 1, 1, Mode::Board));
    let up = cartridge.snapshot().unwrap();
    cartridge.write8(0, 0xE000);
    assert!(!cartridge.irq_line() && !cartridge.irq());

    cartridge.restore(&up).unwrap();
    assert!(cartridge.irq_line());
    cartridge.power_cycle().unwrap();
    assert!(!cartridge.irq_line());
}

/// Board mode refuses only a call with an image of another length.
#[test]
fn a_run_that_is_over_interrupts_nobody() {
    let bytes = image(MMC3, 1, 1);
    let length = bytes.len();
    let shifting = Shifting::new(bytes);
    let mut cartridge = with_line_up(Board::load(&shifting, Mode::Board).unwrap());
    shifting.length.set(length - 1);
    assert_eq!(cartridge.read8(0x8000), 0);
    assert_eq!(cartridge.refusal(), Some(Refusal::StateOutOfRange));
    assert!(!cartridge.irq() && !cartridge.irq_line());
    assert!(cartridge.board().irq_line(), "the board is as it was");
}

/// Without PRG RAM, as an NES 2.0 image says in board mode, 6000-7FFF reads 0 and takes no byte.
#[test]
fn no_prg_ram_on_the_bus() {
    for byte6 in [MMC1, MMC3] {
        for mode in BOTH_MODES {
            let mut board = Board::load(marked(byte6, 1, 0, NO_RAM), mode).unwrap();
            board.prg_ram_mut().fill(0x55);
            let (read, last) = match mode {
                Mode::Board => (0, 0x55),
                Mode::House => (0x66, 0x66),
            };
            let mut cartridge = BusBoard::new(board);
            cartridge.write8(0x66, 0x7FFF);
            assert_eq!(cartridge.read8(0x7FFF), read);
            assert_eq!(cartridge.board().prg_ram()[RAM_LENGTH - 1], last);
            assert_eq!(cartridge.refusal(), None);
        }
    }
}

#[test]
fn notices_go_to_the_callback() {
    let (mut cartridge, notices) = on_bus(MMC3 | 1, 1, 1, Mode::House);
    for value in [1, 0, 1] {
        cartridge.write8(value, 0xA000);
    }
    assert_eq!(*notices.borrow(), [Mirroring::Horizontal; 2]);

    let (mut cartridge, notices) = on_bus(MMC1, 1, 1, Mode::Board);
    for control in [0, 1, 2, 3] {
        for bit in 0..5 {
            cartridge.write8(control >> bit & 1, 0x8000);
        }
    }
    let in_order = [
        Mirroring::SingleScreenLower,
        Mirroring::SingleScreenUpper,
        Mirroring::Vertical,
        Mirroring::Horizontal,
    ];
    assert_eq!(*notices.borrow(), in_order);
}

#[test]
fn without_a_callback_a_notice_goes_nowhere() {
    let mut cartridge = BusBoard::new(load(MMC3, 1, 1, Mode::Board));
    cartridge.write8(0, 0xA000);
    assert_eq!(cartridge.refusal(), None);
    assert_eq!(cartridge.board().mirroring(), Mirroring::Vertical);
}

#[test]
fn after_a_refused_read_nothing_moves() {
    let (mut cartridge, notices) = on_bus(UXROM, 2, 0, Mode::House);
    assert_eq!(cartridge.read8(0x8000), data(0));
    cartridge.write8(2, 0x8000);
    let before = kept(cartridge.board());
    assert_eq!(cartridge.read8(0x8000), 0);
    assert_eq!(cartridge.refusal(), Some(Refusal::BankPastData));
    cartridge.write8(0, 0x8000);
    cartridge.write8(7, 0x0000);
    assert_eq!(cartridge.read8(0xC000), 0);
    assert!(!cartridge.irq());
    assert!(kept(cartridge.board()) == before);
    assert!(notices.borrow().is_empty());
    assert!(kept(&cartridge.into_board()) == before);
}

#[test]
fn after_a_refused_write_nothing_moves_and_the_first_refusal_stays() {
    let (mut cartridge, notices) = on_bus(MMC3 | 1, 1, 1, Mode::House);
    cartridge.write8(0, 0xE001);
    let before = kept(cartridge.board());
    cartridge.write8(0, 0xE000);
    assert_eq!(cartridge.refusal(), Some(Refusal::IrqPending));
    cartridge.write8(1, 0xA000);
    cartridge.write8(0xFF, 0x8001);
    assert!(!cartridge.irq());
    assert_eq!(cartridge.read8(0x8000), 0);
    assert_eq!(cartridge.refusal(), Some(Refusal::IrqPending));
    assert!(kept(cartridge.board()) == before);
    assert!(notices.borrow().is_empty());
}

/// The callback is told how the screens stand, once; it stays, and the run goes on.
#[test]
fn a_run_is_taken_up_in_place() {
    let (mut cartridge, notices) = on_bus(MMC3 | 1, 2, 1, Mode::House);
    cartridge.write8(1, 0xA000);
    cartridge.write8(0x2A, 0x6000);
    let snapshot = cartridge.snapshot().unwrap();
    cartridge.write8(0x2B, 0x6000);
    assert_eq!(cartridge.power_cycle(), Ok(Mirroring::Vertical));
    assert_eq!(cartridge.read8(0x6000), 0x2B);
    assert_eq!(cartridge.restore(&snapshot), Ok(Mirroring::Horizontal));
    assert_eq!(cartridge.read8(0x6000), 0x2A);
    cartridge.write8(1, 0xA000);
    let (h, v) = (Mirroring::Horizontal, Mirroring::Vertical);
    assert_eq!(*notices.borrow(), [h, v, h, h]);
    assert_eq!(cartridge.board().screens(), h);
}

#[test]
fn a_run_that_is_over_is_not_kept_but_can_be_gone_back_from() {
    let (mut cartridge, notices) = on_bus(UXROM, 2, 0, Mode::House);
    let before = cartridge.snapshot().unwrap();
    cartridge.write8(2, 0x8000);
    assert_eq!(cartridge.read8(0x8000), 0);
    let over = Refusal::BankPastData;
    assert_eq!(cartridge.snapshot(), Err(over));
    assert_eq!(cartridge.power_cycle(), Err(over));
    assert_eq!(cartridge.refusal(), Some(over));
    assert!(notices.borrow().is_empty());

    let of_another = load(UXROM, 4, 0, Mode::House).snapshot();
    let refused = cartridge.restore(&of_another);
    assert_eq!(refused, Err(SnapshotError::OtherImage));
    assert_eq!(cartridge.refusal(), Some(over));
    assert!(notices.borrow().is_empty());

    assert_eq!(cartridge.restore(&before), Ok(Mirroring::Horizontal));
    assert_eq!(cartridge.refusal(), None);
    assert_eq!(cartridge.read8(0x8000), data(0));
}

#[test]
fn a_snapshot_of_the_other_mode_is_not_taken_up() {
    let (mut cartridge, notices) = on_bus(MMC3, 2, 1, Mode::House);
    let kept = Mode::Board;
    let snapshot = load(MMC3, 2, 1, kept).snapshot();
    let refused = cartridge.restore(&snapshot);
    assert_eq!(refused, Err(SnapshotError::OtherMode { kept }));
    assert!(notices.borrow().is_empty());
}

#[test]
fn sent_and_cloned_where_the_callback_is() {
    fn is_send_and_clone<T: Send + Clone>(_: &T) {}
    let told = Arc::new(AtomicUsize::new(0));
    let counted = Arc::clone(&told);
    let mut cartridge =
        BusBoard::with_callback(load(MMC3, 2, 1, Mode::Board), move |_: &Mirroring| {
            counted.fetch_add(1, Ordering::Relaxed);
        });
    is_send_and_clone(&cartridge);
    let mut copy = cartridge.clone();
    cartridge.write8(0, 0xA000);
    let sent = thread::spawn(move || {
        copy.write8(0, 0xA000);
        copy.board().screens()
    });
    assert_eq!(sent.join().unwrap(), Mirroring::Vertical);
    assert_eq!(told.load(Ordering::Relaxed), 2);
}
