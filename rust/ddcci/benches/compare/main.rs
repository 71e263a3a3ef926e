//! Paneknoll's proved functions beside the oracle's, in one run: `cargo bench`. Each line is what is measured,
//! Paneknoll, the oracle, and the ratio of the two; of a step of the display also the oracle by `&mut`, and of many
//! settings as many steps.
mod call_lists;
mod capabilities;
mod checksum;
mod display;
mod installed;
mod measure;
mod messages;
mod profiles;
mod settings;
mod transfers;

fn main() {
    println!("{:<44} {:>13} {:>13}   ratio", "", "Paneknoll", "oracle");
    checksum::run();
    messages::run();
    capabilities::run();
    installed::run();
    transfers::run();
    call_lists::run();
    profiles::run();
    display::run();
    settings::run();
}
