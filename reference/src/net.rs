//! Net classes and addresses (01, "Octets").

/// The three classes a net can have.
#[derive(Clone, Copy, Debug, PartialEq, Eq)]
pub enum Class {
    A,
    B,
    C,
}

impl Class {
    /// "Classes go by the first octet: below 128 A, below 192 B, below 224 C, others bad."
    pub fn of_first_octet(octet: u8) -> Option<Class> {
        match octet {
            0..=127 => Some(Class::A),
            128..=191 => Some(Class::B),
            192..=223 => Some(Class::C),
            224..=255 => None,
        }
    }

    pub fn of(address: u32) -> Option<Class> {
        Class::of_first_octet(address.to_be_bytes()[0])
    }

    /// "A net takes 1, 2 or 3 octets."
    pub fn net_octets(self) -> usize {
        match self {
            Class::A => 1,
            Class::B => 2,
            Class::C => 3,
        }
    }

    /// "A gateway takes the host part of the common net, 3, 2 or 1."
    pub fn host_octets(self) -> usize {
        4 - self.net_octets()
    }

    /// Ones where the net number stands.
    pub fn net_mask(self) -> u32 {
        u32::MAX << (8 * self.host_octets())
    }
}

/// A left-justified class A, B or C net: nothing stands right of the net number.
pub fn is_net(value: u32) -> bool {
    Class::of(value).is_some_and(|class| value & !class.net_mask() == 0)
}

/// Whether an address is on a net; nothing is on a bad net.
pub fn is_on(address: u32, net: u32) -> bool {
    is_net(net) && Class::of(net).is_some_and(|class| address & class.net_mask() == net)
}

/// Dotted decimal, as the listing writes addresses.
pub fn dotted(address: u32) -> String {
    let [a, b, c, d] = address.to_be_bytes();
    format!("{a}.{b}.{c}.{d}")
}

/// An address from its four octets.
pub const fn address(a: u8, b: u8, c: u8, d: u8) -> u32 {
    u32::from_be_bytes([a, b, c, d])
}

#[cfg(test)]
mod tests {
    use super::*;

    #[test]
    fn class_edges() {
        assert_eq!(Class::of_first_octet(0), Some(Class::A));
        assert_eq!(Class::of_first_octet(127), Some(Class::A));
        assert_eq!(Class::of_first_octet(128), Some(Class::B));
        assert_eq!(Class::of_first_octet(191), Some(Class::B));
        assert_eq!(Class::of_first_octet(192), Some(Class::C));
        assert_eq!(Class::of_first_octet(223), Some(Class::C));
        assert_eq!(Class::of_first_octet(224), None);
        assert_eq!(Class::of_first_octet(255), None);
    }

    #[test]
    fn widths() {
        let widths = |class: Class| (class.net_octets(), class.host_octets(), class.net_mask());
        assert_eq!(widths(Class::A), (1, 3, 0xFF00_0000));
        assert_eq!(widths(Class::B), (2, 2, 0xFFFF_0000));
        assert_eq!(widths(Class::C), (3, 1, 0xFFFF_FF00));
    }

    #[test]
    fn left_justified() {
        assert!(is_net(0));
        assert!(is_net(address(127, 0, 0, 0)));
        assert!(is_net(address(128, 9, 0, 0)));
        assert!(is_net(address(192, 5, 6, 0)));
        assert!(!is_net(address(10, 1, 0, 0)));
        assert!(!is_net(address(128, 9, 1, 0)));
        assert!(!is_net(address(192, 5, 6, 1)));
        assert!(!is_net(address(224, 0, 0, 0)));
    }

    #[test]
    fn on_a_net() {
        let net = address(128, 9, 0, 0);
        assert!(is_on(address(128, 9, 0, 0), net));
        assert!(is_on(address(128, 9, 255, 255), net));
        assert!(!is_on(address(128, 10, 0, 1), net));
        assert!(!is_on(address(224, 0, 0, 1), address(224, 0, 0, 0)));
        assert!(is_on(5, 0));
    }
}
