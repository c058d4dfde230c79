//! One call: made and its answer written, or with `--dry-run` shown.
use crate::act::{Act, Reply};
use crate::connect::{connect, How};
use crate::failure::{grammar, Failure};
use crate::names::Found;
use crate::output::{form_of, print, Form, Sink};
use crate::settings::Settings;
use crate::tree::{tree, Show};
use crate::view;
use crate::words::{Input, Object};
use clap::ArgMatches;
use metsuwan::{Client, ClientBuilder, Json};
use std::io::{self, Read, Write};
use std::path::Path;
use std::sync::{Arc, Mutex, PoisonError};

fn no_value(call: &str) -> Failure {
    Failure::new(
        1,
        "MissingValue",
        format!("the answer to {call} has no one value: --json shows it"),
    )
}

/// The bytes of an object: those of its key, or of its certificate.
fn bytes_of_object(object: &metsuwan::GetResponsePayload) -> metsuwan::Result<Vec<u8>> {
    match object.object_type.as_str() {
        "Certificate" => object.certificate_value(),
        _ => object.key_material(),
    }
}

/// The call's own value.
fn own(act: &Act, reply: &Reply) -> Result<Vec<u8>, Failure> {
    let call = act.call;
    let answer = match reply {
        Reply::Object(object) => return Ok(bytes_of_object(object)?),
        Reply::Made(id) => return Ok(id.clone().into_bytes()),
        Reply::Answer(answer) => answer,
    };
    let none = || no_value(call.name);
    match answer.json().member(call.gives).ok_or_else(none)? {
        Json::List(items) => {
            let lines = items.iter().filter_map(Json::as_text).map(|it| format!("{it}\n"));
            Ok(lines.collect::<String>().into_bytes())
        }
        // The identifier of a new object.
        value if call.group == "new" => {
            value.as_text().map(|text| text.as_bytes().to_vec()).ok_or_else(none)
        }
        value => value.as_bytes().ok_or_else(none),
    }
}

/// Whether the value may be secret.
fn is_secret(act: &Act, reply: &Reply) -> bool {
    let is_public = match reply {
        Reply::Object(object) => {
            matches!(object.object_type.as_str(), "Certificate" | "PublicKey")
        }
        _ => false,
    };
    act.call.is_secret && !is_public
}

/// The bytes of an answer in a form.
fn written(act: &Act, reply: &Reply, form: Form, about: &str) -> Result<Vec<u8>, Failure> {
    let line = |text: String| format!("{text}\n").into_bytes();
    let hex = |bytes: Vec<u8>| bytes.iter().map(|byte| format!("{byte:02X}")).collect();
    Ok(match form {
        Form::Json => line(reply.json().to_string()),
        Form::Table => view::table(&reply.json(), about).into_bytes(),
        Form::Raw => own(act, reply)?,
        Form::Hex => line(hex(own(act, reply)?)),
        Form::Base64 => line(openssl::base64::encode_block(&own(act, reply)?)),
        Form::Pem => match reply {
            Reply::Object(object) => object.pem()?.into_bytes(),
            _ => return Err(no_value(act.call.name)),
        },
    })
}

/// That the call has what the form writes: it is asked before anything is sent.
fn check_form(act: &Act, form: Form) -> Result<(), Failure> {
    let name = act.call.name;
    match form {
        Form::Pem if name != "get" => {
            Err(grammar(format!("{name} gives nothing in PEM: get does")))
        }
        Form::Raw | Form::Hex | Form::Base64 if act.call.gives.is_empty() => {
            let text = "has no one value: its answer is written by --json alone";
            Err(grammar(format!("the answer to {name} {text}")))
        }
        _ => Ok(()),
    }
}

/// The call of these words; the settings are looked at where it is made.
pub fn one(
    settings: Result<Settings, Failure>,
    name: &str,
    found: &ArgMatches,
) -> Result<u8, Failure> {
    let mut act = Act::read(name, found, &mut Input::default())?;
    if found.get_flag("dry-run") {
        return dry_run(&act);
    }
    let (settings, form) = (settings?, form_of(found)?);
    check_form(&act, form)?;
    let sink = Sink::open(found.get_one::<String>("output").map(Path::new))?;
    let how = How { limit: None, trace: found.get_flag("trace") };
    let connected = connect(&settings, &how)?;
    let about = act.resolve(&connected.client, &mut Found::default())?;
    let reply = act.perform(&connected.client).map_err(|error| act.failed(error))?;
    sink.write(&written(&act, &reply, form, &about)?, is_secret(&act, &reply))?;
    connected.check_record()?;
    Ok(act.status(&reply.json()))
}

/// A stream that keeps the request, and answers nothing.
struct Kept(Arc<Mutex<Vec<u8>>>);

impl Write for Kept {
    fn write(&mut self, bytes: &[u8]) -> io::Result<usize> {
        self.0.lock().unwrap_or_else(PoisonError::into_inner).extend_from_slice(bytes);
        Ok(bytes.len())
    }

    fn flush(&mut self) -> io::Result<()> {
        Ok(())
    }
}

impl Read for Kept {
    fn read(&mut self, _: &mut [u8]) -> io::Result<usize> {
        Ok(0)
    }
}

/// The request of a call, without a credential.
fn request_of(act: &Act) -> Result<Vec<u8>, Failure> {
    let kept = Arc::new(Mutex::new(Vec::new()));
    let client: Client<Kept> = ClientBuilder::new(Kept(kept.clone())).build();
    match act.perform(&client) {
        // The stream has no answer.
        Err(metsuwan::Error::ResponseReadError(_)) | Ok(_) => {}
        Err(error) => return Err(error.into()),
    }
    let request = std::mem::take(&mut *kept.lock().unwrap_or_else(PoisonError::into_inner));
    Ok(request)
}

/// The request as a tree. Nothing is sent, no setting is needed, and none is read.
fn dry_run(act: &Act) -> Result<u8, Failure> {
    let request = request_of(act)?;
    // Data that are given to be kept secret.
    let is_secret = act.call.name == "rng-seed";
    let mut text = tree(&request, Show::Values, is_secret)?;
    let names = act.objects().filter(|object| Found::default().lacks(object));
    for name in names.map(Object::word) {
        let name = crate::failure::plain(name);
        text += &format!("# {name} would be looked up first, as a name\n");
    }
    print(text.as_bytes())?;
    Ok(0)
}
