//! Prints a line for each wrong stand-in: its name, the file and the name of the test that is to find it, whether
//! it can be found, and what is wrong with it. `host/wrong` reads this.
use cathar_host::wrong::TABLES;

fn main() {
    for table in TABLES.iter().copied().flatten() {
        for standin in table.standins {
            println!("{}\t{}\t{}\t{:?}\t{}", standin.name, table.file, table.test, table.finds, standin.says);
        }
    }
}
