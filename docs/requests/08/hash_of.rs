
// Stands behind the unchanged text of industrial/iec61850-monitor/src/lib.rs, whose function for the hash is private: prints the hash of each
// argument, a name in hexadecimal digits.
extern crate std;

fn main() {
    for name in std::env::args().skip(1) {
        let octets: std::vec::Vec<u8> =
            (0..name.len()).step_by(2).map(|at| u8::from_str_radix(&name[at..at + 2], 16).expect("two hexadecimal digits")).collect();
        std::println!("{:08X}", fnv1a_32(&octets));
    }
}
