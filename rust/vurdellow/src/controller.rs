//! The controller's record and its initialisation.

use crate::raw;
use crate::refusal::{settled, Counts, Done, Exchange, Refusal};

/// What is known of the controller: whether it is initialised, and which devices are attached. The default is a controller at power-on.
#[derive(Clone, Copy, Debug, Default, PartialEq, Eq, Hash)]
pub struct Controller {
    /// Whether the controller was initialised.
    pub initialized: bool,
    /// Whether a keyboard is attached to the first port.
    pub keyboard: bool,
    /// Whether a mouse is attached to the second port.
    pub mouse: bool,
}

impl Controller {
    /// Tests the controller and its ports, enables them and resets the devices. Where this is refused the record stays as it was; a device
    /// whose reset fails is only not attached.
    ///
    /// ```
    /// use vurdellow::{Controller, Outcome, Port, LOG_BYTES};
    /// let mut controller = Controller::default();
    /// let mut log = [0; LOG_BYTES];
    /// // Nothing to read yet: the ports are disabled, and the run would read the data port next.
    /// let run = controller.initialize(&[], &mut log);
    /// assert_eq!(run.lacks(), Some(Port::Data));
    /// assert_eq!((run.pairs(), &log[..4]), (2, &[0x64, 0xAD, 0x64, 0xA7][..]));
    /// ```
    pub fn initialize(&mut self, script: &[u8], log: &mut [u8]) -> Exchange<()> {
        let passed = raw::vd_controller {
            initialized: self.initialized.into(),
            keyboard: self.keyboard.into(),
            mouse: self.mouse.into(),
        };
        let answer = raw::vd_controller_init(passed, script, log);
        let raw::vd_initialized { refusal, port, used, pairs, controller } = answer;
        *self = Controller {
            initialized: controller.initialized != 0,
            keyboard: controller.keyboard != 0,
            mouse: controller.mouse != 0,
        };
        settled(Refusal::answered(refusal, port), Done { value: (), used, pairs }, Counts { used, pairs })
    }
}
