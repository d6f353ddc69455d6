//! `run_file FILE`: plays a run file and says what became of each operation.

use std::process::ExitCode;

fn describe(byte: u8) -> String {
    let kinds = ["insert", "delete", "contains"];
    match kinds.get(byte as usize / 64) {
        Some(kind) => format!("{kind} {}", byte % 64),
        None => "size".to_string(),
    }
}

fn main() -> ExitCode {
    let Some(path) = std::env::args_os().nth(1) else {
        eprintln!("run_file FILE");
        return ExitCode::FAILURE;
    };
    let file = match std::fs::read(&path) {
        Ok(file) => file,
        Err(why) => {
            eprintln!("{}: {why}", path.to_string_lossy());
            return ExitCode::FAILURE;
        }
    };
    match pszenorad::read(&file).and_then(|contents| Ok((contents, pszenorad::play(&file)?))) {
        Ok((contents, played)) => {
            let bytes = &file[contents.operations_at..contents.schedule_at];
            for (i, (byte, outcome)) in bytes.iter().zip(&played.outcomes).enumerate() {
                let place = played.log.iter().position(|e| e.operation as usize == i);
                print!("{i}: {} gave {:?}, {} steps, log place {place:?}", describe(*byte), outcome.answer, outcome.own);
                println!("{}", outcome.raiser.map_or(String::new(), |thread| format!(", raised by thread {thread}")));
            }
            ExitCode::SUCCESS
        }
        Err(refusal) => {
            println!("{refusal}");
            ExitCode::FAILURE
        }
    }
}
