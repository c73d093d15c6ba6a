# The merges that are to come, by the crate's name afterwards; tools/merge tells the form.
PLANS = {

    # ---- theorems

    # ---- programs
    "key_listing": {
        "parts": [("key_listing", None), ("buffer", "buffer")],
        "row": "| `key_listing`, `tablekeys` | the listing of key events, defined call by call, with the code that puts it into a lent buffer, as much of it as there is room for; the program that prints it |",
        "texts": [("tests/pages", "buffer", "exchange", "all"), ("tests/pages", "bufer", "exchang", "all"),
                  ("tests/commands", "cd crates/key_listing && rt check", "cd crates/program_status && rt check", "all"), ("tests/commands", "tools/must-fail buffer", "tools/must-fail program_status"),
                  ("docs/CONTRIBUTING.md", "cd crates/key_listing && rt check", "cd crates/program_status && rt check"), ("docs/CONTRIBUTING.md", "tools/must-fail buffer", "tools/must-fail program_status"),
                  ("crates.txt", "# the bits of a number, tables of bytes; a text put into a lent buffer", "# the bits of a number, tables of bytes")],
    },
    # ---- the library
    "ffi_bytes": {
        "parts": [("bytes_words", "bytes"), ("report_words", "reports"), ("preferences_words", "stored_preferences")],
        "root": "The operations that touch no port, by numbers, and preferences: characters, conversion, typing, salvage, reports.",
        "files": {},
        "row": "| `ffi_bytes` | in `bytes` characters, conversion, typing and salvage, in `reports` reports, in `stored_preferences` preferences, read, written and applied: all by numbers | |",
    },
    "ffi_devices": {
        "parts": [("mouse_words", "mouse"), ("controller_words", "controller")],
        "root": "The controller's initialisation and the mouse's operations, by numbers.",
        "row": "| `ffi_devices` | in `controller` the controller's initialisation, in `mouse` the mouse's operations, by numbers (modules 4 and 5) | |",
    },
    "ffi_answers": {
        "texts": [("tests/interface", 'constant(tree, "argument_words",', 'constant(tree, "ffi_answers",', "all"),
                  ("tests/interface", 'rf"\\buse (\\w+)::(?:{name};', 'rf"\\buse (\\w+)::(?:\\w+::)*(?:{name};')],
        "parts": [("argument_words", "arguments"), ("port_words", "ports")],
        "root": "Arguments and answers as numbers that cross to C.",
        "row": "| `ffi_answers` | in `arguments` the meaning of an argument's number, if it has one, and the answer if it has none; in `ports` the answer of an operation on the ports as numbers: refusal, counts, the port of a lack, value, kept bytes, packet |",
    },
    "ffi_handler": {
        "texts": [("tests/interface", 'constant(tree, "handler_words",', 'constant(tree, "ffi_handler",', "all")],
        "parts": [("handler_words", None), ("keyboard_words", "keyboards")],
        "row": "| `ffi_handler` | the handler record lent as 144 numbers and changed in place; their meaning, the handler call, the taking and a fresh record; in `keyboards` the keyboard's operations and its initialisation by numbers (module 6) | `kernel/keyboard`, its statics |",
    },
    "ffi_dispatcher": {
        "parts": [("dispatcher_words", None)],
        "texts": [("tests/interface", 'constant(tree, "dispatcher_words",', 'constant(tree, "ffi_dispatcher",', "all"),
                  ("docs/CONTRIBUTING.md", "`dispatcher_words` place it", "`ffi_dispatcher` place it")],
    },
    # ---- theorems that stood in crates of code
    "theorem_library": {
        "since": {"handler_words": "ffi_handler", "dispatcher_words": "ffi_dispatcher"},
        # the law of a keycode's number goes where keycode_at stands, so that the lent numbers need no theorem's crate
        "texts": [("crates/keyboard_state/proofs/Keycodes.antt", "-- what the keycode of the masked byte tells\n", "-- an event's keycode has the scancode's low part for its number\npub keycode_number : (code : ℕ) → code ≤ last_keycode → number_of (keycode_at code) ≡ code\nunfolding keycode_at keycode_of numbered keycodes\nkeycode_number code h = agree (λ c. number_of (keycode_at c)) (λ c. c) (suc last_keycode) tt code (omega arith)\n\n-- what the keycode of the masked byte tells\n"),
                  ("crates/keyboard_state/proofs/Keycodes.antt", "use Prim.Native.Nat.{ℕ}", "use Prim.Native.Nat.{ℕ, suc, ◌≤◌}"),
                  ("crates/keyboard_state/proofs/Keycodes.antt", "proofs.Every.{agree_bool}", "proofs.Every.{agree, agree_bool}"),
                  ("crates/keyboard_state/proofs/Keycodes.antt", "specs.Keycode.{keycode_of, numbered, keycodes, keycode_read}", "specs.Keycode.{number_of, keycode_of, numbered, keycodes, keycode_read}"),
                  ("crates/theorem_history/proofs/Meaning.antt", "\n-- an event's keycode has the scancode's low part for its number\npub keycode_number : (code : ℕ) → code ≤ last_keycode → number_of (keycode_at code) ≡ code\nunfolding keycode_at keycode_of numbered keycodes\nkeycode_number code h = agree (λ c. number_of (keycode_at c)) (λ c. c) (suc last_keycode) tt code (omega arith)\n", ""),
                  ("crates/ffi_handler/proofs/Alone.antt", "use Rattle.theorem_history.proofs.Meaning.{keycode_number}", "use Rattle.keyboard_state.proofs.Keycodes.{keycode_number}"),
                  ("docs/JOURNEY.md", "[`keycode_number`](../crates/theorem_history/proofs/Meaning.antt", "[`keycode_number`](../crates/keyboard_state/proofs/Keycodes.antt"),
                  ("docs/claims/document-01.txt", "theorem_history: keycode_number; keyboard: event_of()", "keyboard_state: keycode_number; keyboard: event_of()"),
                  ("docs/DECISIONS.md", "re:- **A crate is one layer and small**", "- **A crate is one layer, with all that its dependents use together**: `ls crates` is the architecture. Each must-fail edit costs a check of its crate, and each change one of every crate above it. So bytes and packets are two crates. The wiki's table of set 1 is apart from the keycodes, which need none of it. A device's operations are one crate, with its detection, its packets and its identity. Module 6 is cut by a reader's questions: what the handler keeps (keyboard_state), what a call makes of it (keyboard), who is served (dispatcher). The history rule (theorem_history) is apart from the code, as every theorem over crates is. A function that another module calls is public there, with a whole contract."),
                  ("crates.txt", "## A theorem over every entry", "## Theorems over the library"),
                  ("docs/ARCHITECTURE.md", "## A theorem over every entry", "## Theorems over the library")],
        "moves": {("handler_words", "specs/Runs"): "Calls", ("handler_words", "proofs/Runs"): "Calls",
                  ("dispatcher_words", "specs/Runs"): "Steps", ("dispatcher_words", "proofs/Runs"): "Steps"},
        "head": "A run of calls on lent numbers is a list of the history rule's calls, and one of steps a list of the dispatcher's. No code.",
        "specs": "Runs of calls on lent numbers.", "proofs": "Runs of calls on lent numbers are what the history rule speaks of.",
        "after": "theorem_cut_scripts",
        "row": "| `theorem_library` | that a run of handler calls on lent numbers is a list of the history rule's calls, and a run of steps one of the dispatcher's theorem |",
    },
    "theorem_listing": {
        "moves": {("key_listing", "specs/Listed"): "Listed", ("key_listing", "proofs/Steps"): "Steps", ("key_listing", "proofs/Listing"): "Listing",
                  ("key_listing", "must-fail/cut_at_any_lock"): "cut_at_any_lock"},
        "head": "What a listing is, byte by byte, in the words of the history rule. No code.",
        "specs": "A listing, byte by byte.", "proofs": "A listing is what the history rule's words say.",
        "after": "key_listing",
        "row": "| `theorem_listing` | that a listing is what the history rule's words say, byte by byte. No code |",
    },
    # ---- operations a byte at a time
    "talks": {
        "parts": [("talks", None), ("questions", "questions")],
        "row": "| `talks` | each operation once, as a talk with whoever replies to its questions; in `questions` what is asked of the ports: a write, or a whole bounded wait with one reply; the place in it, and what one byte makes of that place |",
    },
    "sessions": {
        "texts": [("tests/interface", 'glob.glob("crates/*/src/*.rt")', 'glob.glob("crates/*/src/**/*.rt", recursive=True)'),
                  ("tests/interface", 'constant(tree, "step_words",', 'constant(tree, "sessions",', "all")],
        "parts": [("sessions", None), ("step_words", "words")],
        "row": "| `sessions` | each operation on what the ports replied so far: its end, or the question that has no reply; that no operation asks more than 224; in `words` all that is kept of one in 256 lent numbers: a beginning and a step |",
    },
    # ---- the lower rooms: these prove nearly everything again
    "keycodes": {
        "texts": [("tests/layout", '"crates", "keycodes_ascii", "src"', '"crates", "keycodes", "src"')],
        "parts": [("keycodes_ascii", None), ("keyboard_modifiers", "modifiers")],
        "row": "| `keycodes` | keycodes, key events, and the characters on one page, `src/layout.rt` (request 2.5); in `modifiers` the modifier flags, with AltGr (request 2.4) | `libs/keycodes_ascii` |",
    },
    "ps2_bytes": {
        "texts": [("tests/rust_in_rattle", 'f"crates/ps2_bytes/src/{path}.rt"', 'f"crates/ps2_bytes/src/layouts/{path}.rt"')],
        "parts": [("ps2_bytes", None), ("ps2_layouts", "layouts")],
        "row": "| `ps2_bytes` | the bytes that mean one thing each: commands, data, responses; in `layouts` those whose bits have a meaning each: status, configuration, LEDs | `kernel/ps2`, its types |",
    },
    "ps2_answers": {
        "parts": [("ps2_answers", None), ("ps2_kept", "kept")],
        "row": "| `ps2_answers` | the answers of operations: refusals by number, lacks of script and log, answers with their counts; in `kept` the bytes that receiving throws away: the earliest are kept, the others counted (request 2.3) | `kernel/ps2`, its `Result`s |",
    },
    "ps2_ports": {
        "texts": [("tests/interface", 'glob.glob("crates/*/proofs/Bounds.antt")', 'glob.glob("crates/*/proofs/*Bounds.antt")')],
        "comment": "one read, one write, the registers; sending, receiving, the controller's tests; the command rule",
        "parts": [("ps2_ports", None), ("ps2_polling", "polling"), ("ps2_command", "command")],
        "row": "| `ps2_ports` | one read, one write, the status, the configuration; in `polling` sending and receiving by polling, the controller's tests; in `command` the command rule: four attempts, the second port's D4; two bytes in a row to either port; the bytes that a reset waits for | `kernel/ps2`, `PS2Controller`, `command_to_keyboard`, `command_to_mouse` |",
    },
    "ps2_keyboard": {
        "parts": [("ps2_keyboard", None), ("ps2_detect", "detect")],
        "row": "| `ps2_keyboard` | the keyboard's reset, lamps and scancode set; in `detect` the detection of its type | `kernel/ps2`, `PS2Keyboard`, `keyboard_detect` |",
    },
    "ps2_mouse": {
        "parts": [("ps2_mouse", None), ("ps2_packet_reading", "packet_reading"), ("ps2_mouse_identity", "identity")],
        "row": "| `ps2_mouse` | the mouse's reset, settings and the question for its identity; in `packet_reading` the reading of its packets, with the Rust's wheel or a signed one (request 2.1); in `identity` the sequence of rates that asks for another identity | `kernel/ps2`, `PS2Mouse`, `read_mouse_packet`, `set_mouse_id` |",
    },
    "ps2_init": {
        "parts": [("ps2_init", None), ("ps2_setup", "setup")],
        "row": "| `ps2_init` | initialisation, and the devices that it found; in `setup` its steps that concern the controller alone | `kernel/ps2`, `init` |",
    },
    "keyboard_state": {
        "texts": [("tests/interface", 'constant(tree, "keyboard_record",', 'constant(tree, "keyboard_state",', "all")],
        "parts": [("keyboard_record", None), ("keyboard_sides", "sides"), ("keyboard_scancodes", "scancodes")],
        "row": "| `keyboard_state` | the handler's record, for one keyboard or two and a profile, and its queue; malformed records; the taking from the queue (requests 2.9 and 2.13); in `scancodes` single scancodes: strokes, the table of flags, lamps, events; the memory of one keyboard, with the bytes that wait; the tournament profile (requests 2.3 and 2.13); in `sides` the two sides of a table, and the sides of the events that wait, as a row of bits (request 2.9) | `kernel/keyboard`, its statics, its `Queue<Event>`, `handle_keyboard_input` |",
    },
    "keyboard": {
        "parts": [("keyboard", None), ("keyboard_init", "initialization")],
        "row": "| `keyboard` | the handler call, for either side: its keyboard's part, the record's part, and the code, in place and by value (request 2.9); in `initialization` keyboard initialisation, which yields the fresh record | `kernel/keyboard`, `ps2_keyboard_handler`, `handle_keyboard_input` and `init` |",
    },
    "salvage": {"parts": [("ps2_salvage", None)]},
}
