//! What the driver needs of `ps2` and can't reach from outside. Nothing here decides anything: each function makes a
//! value or calls the Rust's function of that name.

use super::*;

#[path = "../unchanged.rs"]
mod unchanged;

const _: () = assert!(unchanged::unchanged(
    include_bytes!("../target/theseus/ps2.rs"),
    include_bytes!("../../../docs/src/src--kernel--ps2--src--lib.rs.txt"),
    b"#[path = \"../../ps2/reach.rs\"] pub mod reach;\n",
));

type Done = Result<(), &'static str>;

pub fn controller(keyboard_attached: bool, mouse_attached: bool) -> PS2Controller {
    PS2Controller {
        data_port: Mutex::new(Port::new(PS2Controller::PS2_DATA_PORT)),
        command_and_status_port: Mutex::new(Port::new(PS2Controller::PS2_COMMAND_AND_STATUS_PORT)),
        keyboard_attached,
        mouse_attached,
    }
}

/// The controller record becomes this one; `None` is a controller that is not yet initialised.
pub fn set_controller(controller: Option<PS2Controller>) {
    PS2_CONTROLLER.reset();
    if let Some(controller) = controller {
        PS2_CONTROLLER.call_once(|| controller);
    }
}

/// Whether a keyboard and a mouse are attached, once the controller is initialised.
pub fn attached() -> Option<(bool, bool)> {
    PS2_CONTROLLER.get().map(|c| (c.keyboard_attached, c.mouse_attached))
}

pub fn polling_send(c: &PS2Controller, set: ScancodeSet) -> Done {
    c.polling_send(HostToDevice::Keyboard(HostToKeyboardCommandOrData::ScancodeSet(set)))
}

pub fn polling_receive(c: &PS2Controller) -> Result<u8, &'static str> {
    c.polling_receive().map(|response| response as u8)
}

/// The keyboard's commands, by their bytes.
pub fn keyboard_commands() -> [HostToKeyboardCommand; 8] {
    use HostToKeyboardCommand::*;
    [
        SetLEDStatus,
        ScancodeSet,
        IdentifyKeyboard,
        SetRepeatRateAndDelay,
        EnableScanning,
        DisableScanning,
        ResendByte,
        ResetAndStartSelfTest,
    ]
}

pub fn command_to_keyboard(k: &PS2Keyboard, value: HostToKeyboardCommandOrData) -> Done {
    k.command_to_keyboard(value)
}

pub fn get_keyboard_scancode_set(k: &PS2Keyboard) -> Result<u8, &'static str> {
    k.get_keyboard_scancode_set().map(|set| set as u8)
}

pub fn keyboard_waits(k: &PS2Keyboard) -> bool {
    k.is_output_buffer_full()
}

/// The mouse's commands, by their bytes.
pub fn mouse_commands() -> [HostToMouseCommand; 15] {
    use HostToMouseCommand::*;
    [
        SetScaling,
        SetResolution,
        StatusRequest,
        SetStreamMode,
        ReadData,
        ResetWrapMode,
        SetWrapMode,
        SetRemoteMode,
        GetDeviceID,
        SampleRate,
        EnableDataReporting,
        DisableDataReporting,
        SetDefaults,
        ResendByte,
        Reset,
    ]
}

pub fn mouse(controller: &PS2Controller, id: MouseId) -> PS2Mouse<'_> {
    PS2Mouse { controller, id }
}

pub fn identity(m: &PS2Mouse) -> u8 {
    match m.id {
        MouseId::Zero => 0,
        MouseId::Three => 3,
        MouseId::Four => 4,
    }
}

pub fn command_to_mouse(m: &PS2Mouse, value: HostToMouseCommandOrData) -> Done {
    m.command_to_mouse(value)
}

pub fn set_mouse_sampling_rate(m: &PS2Mouse, rate: MouseSampleRate) -> Done {
    m.set_mouse_sampling_rate(rate)
}

pub fn mouse_id(m: &PS2Mouse) -> Result<u8, &'static str> {
    m.mouse_id().map(|id| id as u8)
}

pub fn enable_mouse_packet_streaming(m: &PS2Mouse) -> Done {
    m.enable_mouse_packet_streaming()
}

pub fn disable_mouse_packet_streaming(m: &PS2Mouse) -> Done {
    m.disable_mouse_packet_streaming()
}

pub fn mouse_resolution(m: &PS2Mouse, resolution: MouseResolution) -> Done {
    m.mouse_resolution(resolution)
}
