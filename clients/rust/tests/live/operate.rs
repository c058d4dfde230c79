//! One call of any operation of KMIP 1.2, whose payload is JSON: it writes the answer.
//!
//! operate HOST PORT CERTIFICATE KEY AUTHORITY OPERATION PAYLOAD
mod settings;

use settings::Failure;
use std::process::ExitCode;

fn answer() -> Result<String, Failure> {
    let words = settings::arguments()?;
    let Some((server, [name, payload])) = settings::server_of(&words)? else {
        return Err(settings::wrong("the words are no operation and its payload"));
    };
    let answer = server.connect()?.build().operation(name, "1.2", payload)?;
    Ok(format!("{{\"answer\":{}}}", answer.json()))
}

fn main() -> ExitCode {
    match answer() {
        Ok(line) => {
            println!("{line}");
            ExitCode::SUCCESS
        }
        Err(Failure(line, status)) => {
            settings::say(&line);
            ExitCode::from(status)
        }
    }
}
