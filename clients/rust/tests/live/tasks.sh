# shellcheck shell=bash
# needs: server
# The tasks of clients/rust/README.md, as they stand there.
{
    cat <<'CODE'
mod settings;

fn main() -> Result<(), Box<dyn std::error::Error>> {
    let words = settings::arguments()?;
    let Some((server, [])) = settings::server_of(&words)? else { return Err("words".into()) };
    let client = server.connect()?.build();
CODE
    lines_of_tasks rust
    cat <<'CODE'
    println!("{} {}", signature.len(), identifiers.len());
    println!("the end");
    Ok(())
}
CODE
} >"$run/rust/source/examples/tasks.rs"
cargo_of_copy build --release --features openssl --example tasks >"$said" 2>&1
verdict 'the tasks are built'
cp "$authority" ca.pem
patience=200 client_run tasks >"$said" 2>&1
verdict 'all tasks'
says 'to their end' '^the end$'
says 'the public key is PEM' '^-----BEGIN RSA PUBLIC KEY-----$'
says 'so is the certificate' '^-----BEGIN CERTIFICATE-----$'
