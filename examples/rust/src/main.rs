//! Places a call: a line and an RTP ephemeral into a new context, both turned
//! on, and cleared again.

use cordafina::{Gateway, Refusal, Termination};

const MESSAGES: [&str; 3] = [
    "!/1 [10.0.0.1] T=1{C=${PR=4,A=L/1/5,A=$}}",
    "!/1 [10.0.0.1] T=2{C=1{MF=*{M{O{MO=SendReceive}}}}}",
    "!/1 [10.0.0.1] T=3{C=1{S=*}}",
];

fn main() -> Result<(), Refusal> {
    let mut gateway = Gateway::new(b"[10.0.0.9]")?;
    for message in MESSAGES {
        let reply = gateway.answer(message.as_bytes())?;
        println!("{message}\n  {}", reply.escape_ascii());
        let table = gateway.table();
        let context = table.context_of(Termination::Line(1, 5)).unwrap_or(0);
        println!("  L/1/5 stands in context {context}");
        let (used, next) = (table.in_use(), table.lowest_absent());
        println!("  ephemerals in use: {used}, next: R/{next}");
        print!("{table}");
    }
    Ok(())
}
