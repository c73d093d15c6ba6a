//! What the wrapper adds to the library: types, results, iterators, conversions.

use std::error::Error;
use vurdellow::keyboard::{self, KeyboardCommand, Lamps};
use vurdellow::*;

const LOCK: [u8; 7] = [0x3A, 0x00, 0x01, 0xFA, 0x00, 0x01, 0xFA];

fn handler() -> Handler {
    Handler::new(Keyboards::One, Profile::Any)
}

#[test]
fn refusals_have_numbers_and_words() {
    let mut log = [0; HANDLER_LOG];
    let refused = handler().handle(Side::First, &[], &mut log).unwrap_err();
    assert_eq!((refused.refusal, refused.number()), (Refusal::ScriptEnds(Port::Data), 2));
    assert_eq!(refused.to_string(), "refused 2: the script has no byte for the next read, of port 60");
    assert_eq!(Refusal::QueueFull.to_string(), "refused 20: 128 events wait");
    let boxed: Box<dyn Error + Send + Sync> = Box::new(refused);
    assert!(boxed.downcast_ref::<Refused<Handled>>().is_some());
    let as_refusal: Refusal = refused.into();
    assert!(as_refusal.is_lack() && !Refusal::QueueFull.is_lack());
}

#[test]
fn counts_stand_beside_refusals() {
    let mut log = [0; HANDLER_LOG];
    let run = handler().handle(Side::First, &LOCK[..5], &mut log);
    assert_eq!(
        (run.refusal(), run.lacks(), run.used(), run.pairs()),
        (Some(Refusal::ScriptEnds(Port::Status)), Some(Port::Status), 5, 2)
    );
    assert_eq!(log[..4], [0x60, 0xED, 0x60, 0x04]);
    // Two bytes of log are one pair; the second write is refused.
    let run = handler().handle(Side::First, &LOCK, &mut log[..3]);
    assert_eq!((run.refusal(), run.pairs()), (Some(Refusal::LogFull), 1));
    let refused = handler().handle(Side::First, &[0x5E], &mut []).unwrap_err();
    assert_eq!((refused.refusal, refused.done.used), (Refusal::UnknownScancode, 1));
    let refused = handler().handle(Side::Second, &[0x1E], &mut log).unwrap_err();
    assert_eq!((refused.refusal, refused.done), (Refusal::MalformedRecord, Handled::default()));
}

#[test]
fn a_lamp_exchange_that_fails_is_shown() {
    let done = handler().handle(Side::First, &[0x3A, 0x00, 0x01, 0xFC], &mut [0; HANDLER_LOG]).unwrap();
    assert!(done.lamps_failed);
    let done = handler().handle(Side::First, &LOCK, &mut [0; HANDLER_LOG]).unwrap();
    assert!(!done.lamps_failed);
}

#[test]
fn waiting_bytes_are_handled_without_a_script() {
    let (mut handler, mut log) = (handler(), [0; HANDLER_LOG]);
    let done = handler.handle(Side::First, &[0x3A, 0x00, 0x01, 0x1E, 0x01, 0xFA, 0x00, 0x01, 0xFA], &mut log).unwrap();
    assert_eq!((done.used, handler.waiting_bytes(Side::First)), (9, 1));
    assert_eq!(handler.handle(Side::First, &[], &mut log).unwrap().used, 0);
    assert_eq!(handler.waiting_bytes(Side::First), 0);
    assert_eq!(handler.events().map(|event| event.character()).collect::<Vec<_>>(), [None, Some('A')]);
    assert!(handler.modifiers(Side::First).is_caps_lock());
}

#[test]
fn events_are_taken_one_by_one() {
    let mut handler = handler();
    for byte in 0x02..0x0A {
        handler.handle(Side::First, &[byte], &mut []).unwrap();
    }
    assert_eq!((handler.waiting_events(), handler.events().len()), (8, 8));
    let first: Vec<_> = handler.events().take(3).map(|event| event.keycode).collect();
    assert_eq!(first, [Keycode::Num1, Keycode::Num2, Keycode::Num3]);
    assert_eq!(handler.take().and_then(|event| event.character()), Some('4'));
    assert_eq!(handler.events().count(), 4);
    assert_eq!((handler.take(), handler.events().next()), (None, None));
}

#[test]
fn a_full_queue_refuses_and_flags_move_on() {
    let mut handler = handler();
    handler.handle(Side::First, &[0x1D], &mut []).unwrap();
    while handler.handle(Side::First, &[0x1E], &mut []).is_ok() {}
    assert_eq!(handler.waiting_events(), 128);
    assert_eq!(handler.handle(Side::First, &[0x9D], &mut []).unwrap_err().refusal, Refusal::QueueFull);
    assert!(!handler.modifiers(Side::First).is_control());
    assert!(handler.events().all(|event| event.modifiers.is_control()));

    let mut table = Handler::new(Keyboards::Two, Profile::Any);
    for _ in 0..96 {
        table.handle(Side::First, &[0x1E], &mut []).unwrap();
    }
    assert_eq!(table.handle(Side::First, &[0x1E], &mut []).unwrap_err().refusal, Refusal::SideFull);
    assert!(table.handle(Side::Second, &[0x1E], &mut []).is_ok());
}

#[test]
fn the_profile_refuses_other_keys() {
    let mut rated = Handler::new(Keyboards::One, Profile::Tournament);
    assert_eq!(rated.handle(Side::First, &[0x3B], &mut []).unwrap_err().refusal, Refusal::OutsideProfile);
    assert!(rated.handle(Side::First, &[0x1E], &mut []).is_ok());
}

#[test]
fn records_are_stored_and_restored() {
    let mut handler = Handler::new(Keyboards::Two, Profile::Any);
    handler.handle(Side::Second, &[0x2A], &mut []).unwrap();
    let mut restored = Handler::from_words(*handler.words()).unwrap();
    assert_eq!(restored, handler);
    assert!(restored.modifiers(Side::Second).is_shift() && !restored.modifiers(Side::First).is_shift());
    assert_eq!(restored.take(), handler.take());
    // An event of any numbers is one: a release code is its key's.
    let mut words = *handler.words();
    words[13] = 1;
    words[16 + words[12] as usize] = 0x9D;
    assert_eq!(Handler::from_words(words).unwrap().take().unwrap().keycode, Keycode::ControlReleased);
    words[13] = 129;
    assert_eq!(Handler::from_words(words), Err(Refusal::MalformedRecord));
}

#[test]
fn keycodes_and_numbers_are_one_to_one() {
    for number in 0..=255 {
        if let Some(keycode) = Keycode::from_number(number) {
            assert_eq!(keycode.number(), number);
        }
    }
    assert_eq!((0..=255).filter_map(Keycode::from_number).count(), Keycode::ALL.len());
    let typed: String =
        Keycode::ALL.iter().filter_map(|key| key.character(Modifiers::NONE)).filter(char::is_ascii_lowercase).collect();
    assert_eq!(typed.len(), 26);
    assert!((Modifiers::SHIFT_LEFT | Modifiers::ALT_RIGHT).is_alt_gr());
}

#[test]
fn typed_text_is_read_back() {
    let (mut out, mut handler) = ([0; 64], handler());
    let written = type_text(b"Check, 7!", &mut out).unwrap();
    for byte in &out[..written] {
        handler.handle(Side::First, &[*byte], &mut []).unwrap();
    }
    let text: String = handler.events().filter(Event::is_press).filter_map(|event| event.character()).collect();
    assert_eq!(text, "Check, 7!");
    assert_eq!(type_text(b"ab", &mut out[..3]), Err(Refusal::OutputShort));
}

#[test]
fn commands_hand_back_what_they_threw_away() {
    let mut script = vec![0x00];
    for _ in 0..18 {
        script.extend([0x01, 0x1E]);
    }
    script.extend([0x01, 0xFC]);
    let refused = keyboard::command(KeyboardCommand::EnableScanning, &script, &mut [0; 8]).unwrap_err();
    assert_eq!(
        (refused.refusal, refused.done.kept.bytes(), refused.done.kept.others),
        (Refusal::SelfTestFailed, &[0x1E; 16][..], 2)
    );
    let mut log = [0; 8];
    let done = keyboard::set_lamps(Lamps::CAPS | Lamps::NUM, &[0x00, 0x01, 0xFA, 0x00, 0x01, 0xFA], &mut log).unwrap();
    assert_eq!((done.pairs, log[..4].to_vec()), (2, vec![0x60, 0xED, 0x60, 0x06]));
}

#[test]
fn keyboard_and_mouse_answer() {
    let ack = [0x00, 0x01, 0xFA];
    let mut script: Vec<u8> = ack.repeat(2);
    script.extend([0x01, 0x02]);
    assert_eq!(keyboard::get_scancode_set(&script, &mut [0; 16]).unwrap().value, 2);
    assert!(keyboard::waits(&[0x01]).unwrap().value);
    assert_eq!(keyboard::read_scancode(&[0x1E]).unwrap().value, 0x1E);
    let mut log = [0; 16];
    let mut script = ack.to_vec();
    script.extend([0x21, 0x03]);
    assert_eq!(Mouse::get_identity(&script, &mut log).unwrap(), Done { value: Identity::Wheel, used: 5, pairs: 2 });
    assert_eq!(log[..4], [0x64, 0xD4, 0x60, 0xF2]);
    let mut mouse = Mouse { identity: Identity::Wheel };
    assert_eq!(mouse.set_identity(&[], &mut []).unwrap_err().number(), 3);
    assert_eq!(mouse.identity, Identity::Wheel);
    assert_eq!(Mouse::command(MouseCommand::SetDefaults, &ack, &mut log).unwrap().pairs, 2);
}

#[test]
fn initialisation_goes_on_with_each_byte() {
    // A controller without a mouse, whose keyboard answers: the whole exchange, one byte more each time.
    let script = [0x00, 0x00, 0x55, 0x01, 0x00, 0x00, 0x01, 0xFA, 0xAA];
    let mut log = [0; LOG_BYTES];
    for length in 0..script.len() {
        let mut controller = Controller::default();
        let run = controller.initialize(&script[..length], &mut log);
        assert_eq!((run.used(), controller), (length, Controller::default()));
        assert!(run.lacks().is_some());
    }
    let mut controller = Controller { initialized: true, ..Controller::default() };
    assert_eq!(controller.initialize(&script, &mut log).unwrap_err().number(), 1);
    assert!(controller.initialized);
}

#[test]
fn a_handler_is_fresh_after_initialisation_unless_script_or_log_runs_out() {
    let mut handler = handler();
    handler.handle(Side::First, &[0x1E], &mut []).unwrap();
    let before = handler.clone();
    let run = handler.initialize(Keyboards::Two, Profile::Any, &[], &mut [0; LOG_BYTES]);
    assert_eq!(run.lacks(), Some(Port::Status));
    assert_eq!(handler, before);
    // A keyboard that answers FC is not detected.
    let script = [0x00, 0x01, 0xFC];
    for length in 0..script.len() {
        handler.initialize(Keyboards::Two, Profile::Any, &script[..length], &mut [0; LOG_BYTES]).unwrap_err();
        assert_eq!(handler, before);
    }
    let refused = handler.initialize(Keyboards::Two, Profile::Any, &script, &mut []).unwrap_err();
    assert_eq!((refused.number(), &handler), (3, &before));
    let refused = handler.initialize(Keyboards::Two, Profile::Any, &script, &mut [0; LOG_BYTES]).unwrap_err();
    assert_eq!((refused.number(), handler), (18, Handler::new(Keyboards::Two, Profile::Any)));
}

#[test]
fn numbers_that_no_record_can_hold_are_malformed() {
    let one = *Handler::new(Keyboards::One, Profile::Any).words();
    let two = *Handler::new(Keyboards::Two, Profile::Any).words();
    // Prefix, flags and waiting bytes of a side, then keyboards, profile, start and count: the greatest that there can be.
    let greatest = [(0, 1), (1, 0x7FF), (2, 16), (11, 1), (12, 127), (13, 128)];
    for (place, number) in greatest {
        let mut words = one;
        words[place] = number;
        assert!(Handler::from_words(words).is_ok(), "{place}: {number}");
        for above in [number + 1, number + (1 << 8), number + (1 << 16), number + (1 << 32), u64::MAX] {
            words[place] = above;
            assert_eq!(Handler::from_words(words), Err(Refusal::MalformedRecord), "{place}: {above}");
        }
    }
    for keyboards in [0, 3, 1 + (1 << 32), 2 + (1 << 32), u64::MAX] {
        let mut words = two;
        words[10] = keyboards;
        assert_eq!(Handler::from_words(words), Err(Refusal::MalformedRecord));
    }
    // Of a side that is not at the table nothing is asked.
    for place in 5..8 {
        for (mut words, taken) in [(one, true), (two, false)] {
            words[place] = u64::MAX;
            assert_eq!(Handler::from_words(words).is_ok(), taken);
        }
    }
    let dispatcher = *Dispatcher::new(Keyboards::Two, Profile::Any, Identity::Wheel).words();
    for (place, number, taken) in [(144, 0, true), (144, 4, true), (144, 5, false), (144, 3 + (1 << 32), false), (148, 3, true), (148, 4, false), (145, u64::MAX, true)] {
        let mut words = dispatcher;
        words[place] = number;
        assert_eq!(Dispatcher::from_words(words).is_ok(), taken, "{place}: {number}");
    }
}

#[test]
fn preferences_are_stored_and_applied() {
    let fields = Fields { set: 2, rate: 200, resolution: 0, lamps: 1 };
    let (mut out, preferences) = ([0; 16], Preferences::Version2(fields, 127));
    let written = preferences.write(&mut out).unwrap();
    assert_eq!(
        (Preferences::read(&out[..written]), Preferences::read_fields(&out[..written])),
        (Ok(preferences), Ok(fields))
    );
    assert_eq!(preferences.write(&mut out[..written - 1]), Err(Refusal::OutputFull));
    let outside = Preferences::Version1(Fields { rate: 30, ..fields });
    assert_eq!(
        (outside.write(&mut out), outside.apply(&[0; 9], &mut out).unwrap_err().number()),
        (Err(Refusal::OutsideValues), 28)
    );
    assert_eq!(preferences.apply(&[], &mut [0; LOG_BYTES]).lacks(), Some(Port::Status));
    assert_eq!(Preferences::read(&[0x01, 0x84]), Err(Refusal::MalformedNumber));
}

#[test]
fn reports_stay_where_a_session_is_refused() {
    let mut report = Report { packets: u32::MAX, ..Report::new() };
    let before = report;
    assert_eq!(report.add(Identity::NoWheel, &[], &[0x08, 0, 0]), Err(Refusal::OutOfRange));
    assert_eq!(report, before);
    let mut long = LongReport::from(&report);
    long.add(Identity::NoWheel, &[0x1E, 0x1E], &[0x18, 0xFF, 0x00]).unwrap();
    assert_eq!((long.packets, long.x, long.presses(Keycode::A)), (1 << 32, -1, 2));
    assert_eq!(long.mean_x(), Some(Mean { quotient: -1, remainder: (1 << 32) - 1 }));
    assert_eq!(Report::new().mean_y(), None);
    let event = Event { side: Side::First, keycode: Keycode::A, action: Action::Released, modifiers: Modifiers::NONE };
    assert_eq!(event.code(), 0x9E);
}

#[test]
fn a_dispatcher_serves_by_turns() {
    let mut table = Dispatcher::new(Keyboards::Two, Profile::Any, Identity::Wheel);
    let mut log = [0; HANDLER_LOG];
    let (first, second, mouse) = ([0x1E, 0x9E], [0x30], [0x08, 0x01, 0x02, 0xFF, 0x08]);
    assert_eq!(table.last_served(), None);
    assert!(matches!(table.step(&first, &second, &mouse, &mut log), Step::Key(Side::First, Ok(_))));
    assert!(matches!(table.step(&first, &second, &mouse, &mut log), Step::Key(Side::Second, Ok(_))));
    let Step::Packet(Ok(read)) = table.step(&first, &second, &mouse, &mut log) else { panic!("no packet") };
    assert_eq!((read.value.x, read.value.y, read.value.wheel, read.used), (1, 2, -1, 4));
    assert_eq!(
        (table.place(Source::Mouse), table.place(Source::Keyboard(Side::First)), table.last_served()),
        (4, 1, Some(Source::Mouse))
    );
    let stored = Dispatcher::from_words(*table.words()).unwrap();
    assert_eq!((stored.identity(), &stored), (Identity::Wheel, &table));
    assert!(table.step(&first, &second, &mouse, &mut log).is_progress());
    assert_eq!(table.step(&first, &second, &mouse, &mut log), Step::Idle);
    assert_eq!(table.events().map(|event| event.side.number()).collect::<Vec<_>>(), [1, 2, 1]);
}

#[test]
fn a_salvage_goes_on_where_it_had_no_room() {
    let recording = [0x08, 1, 2, 0x00, 0x08, 3, 4];
    let (mut packets, mut positions) = ([0; 3], [0; 4]);
    let refused = salvage(Identity::NoWheel, &recording, &mut packets, &mut positions).unwrap_err();
    assert_eq!((refused.refusal, refused.done), (Refusal::NoRoom, Salvaged { used: 4, packet_bytes: 3, dropped: 1 }));
    assert_eq!((packets, positions[0]), ([0x08, 1, 2], 3));
    let done = salvage(Identity::NoWheel, &recording[refused.done.used..], &mut packets, &mut positions).unwrap();
    assert_eq!((done.used, packets), (3, [0x08, 3, 4]));
}

#[test]
fn keycodes_come_of_their_numbers_alone() {
    assert_eq!(Keycode::try_from(0x1E), Ok(Keycode::A));
    assert_eq!(Keycode::try_from(0x9D), Ok(Keycode::ControlReleased));
    assert_eq!(Keycode::try_from(0x5E), Err(NoKeycode(0x5E)));
    assert_eq!(NoKeycode(0x5E).to_string(), "no keycode has the number 5E");
}

#[test]
fn the_default_handler_is_fresh() {
    assert_eq!(Handler::default(), handler());
}
