// The same loop as `serve_asks` over a link in memory, by stock httparse: the program beside which `checks/speed.sh`
// takes the time. A request is read into a buffer of 16 KiB, parsed, held against the rules of a head, routed and answered
// with 22 bytes, each with texts and buffers of its own, as there.
//
// Standard input has one number, how often the request comes. It prints how the link ended and how many bytes were written.

use std::io::{self, BufRead, Write};

const REQUEST: &[u8] = b"GET /v3/flat/foo/index.json HTTP/1.1\r\nHost: f.test\r\n\r\n";
const BODY: &[u8] = b"{\"versions\":[\"1.0.0\"]}";
const ROOM: usize = 16_384;

trait Link {
    fn read(&mut self, buffer: &mut [u8]) -> Result<usize, ()>;
    fn write(&mut self, piece: &[u8]) -> Result<(), ()>;
}

struct Asking {
    left: u64,
    written: u64,
}

impl Link for Asking {
    fn read(&mut self, buffer: &mut [u8]) -> Result<usize, ()> {
        if self.left == 0 || buffer.len() < REQUEST.len() {
            return Ok(0);
        }
        self.left -= 1;
        buffer[..REQUEST.len()].copy_from_slice(REQUEST);
        Ok(REQUEST.len())
    }

    fn write(&mut self, piece: &[u8]) -> Result<(), ()> {
        self.written = self.written.saturating_add(piece.len() as u64);
        Ok(())
    }
}

struct Request {
    method: String,
    target: String,
    last: bool,
    #[allow(dead_code)]
    body: Vec<u8>,
}

enum Stop {
    Closed,
    Bad(u16),
    Fault,
}

struct Wire {
    bytes: Vec<u8>,
    start: usize,
    end: usize,
}

struct Head {
    size: usize,
    method: String,
    target: String,
    last: bool,
    length: usize,
}

fn named(fields: &[httparse::Header], name: &str) -> usize {
    fields.iter().filter(|field| field.name.eq_ignore_ascii_case(name)).count()
}

fn body_length(minor: u8, fields: &[httparse::Header]) -> Result<usize, Stop> {
    let hosts = named(fields, "host");
    if hosts > 1 || (minor == 1 && hosts == 0) {
        return Err(Stop::Bad(400));
    }
    if named(fields, "transfer-encoding") > 0 {
        return Err(Stop::Bad(501));
    }
    if named(fields, "content-encoding") > 0 {
        return Err(Stop::Bad(415));
    }
    let mut found: Option<&[u8]> = None;
    for field in fields {
        if field.name.eq_ignore_ascii_case("content-length") {
            if found.is_some_and(|first| first != field.value) {
                return Err(Stop::Bad(400));
            }
            found = Some(field.value);
        }
    }
    let Some(text) = found else { return Ok(0) };
    if text.is_empty() || text.len() > 18 || !text.iter().all(u8::is_ascii_digit) {
        return Err(Stop::Bad(400));
    }
    let length = text.iter().fold(0u64, |number, digit| number * 10 + u64::from(digit - b'0'));
    if length > 67_108_864 { Err(Stop::Bad(413)) } else { Ok(length as usize) }
}

fn closes(minor: u8, fields: &[httparse::Header]) -> bool {
    minor == 0
        || fields.iter().any(|field| {
            field.name.eq_ignore_ascii_case("connection")
                && field.value.split(|byte| *byte == b',').any(|piece| piece.trim_ascii().eq_ignore_ascii_case(b"close"))
        })
}

// The head at the front of the bytes, if it is whole.
fn read_head(bytes: &[u8]) -> Result<Option<Head>, Stop> {
    let mut fields = [httparse::EMPTY_HEADER; 64];
    let mut head = httparse::Request::new(&mut fields);
    match head.parse(bytes) {
        Ok(httparse::Status::Complete(size)) => {
            let minor = head.version.unwrap_or(0);
            let length = body_length(minor, head.headers)?;
            Ok(Some(Head {
                size,
                method: head.method.unwrap_or("").to_owned(),
                target: head.path.unwrap_or("").to_owned(),
                last: closes(minor, head.headers),
                length,
            }))
        }
        Ok(httparse::Status::Partial) => Ok(None),
        Err(_) => Err(Stop::Bad(400)),
    }
}

fn fill<L: Link>(wire: &mut Wire, link: &mut L) -> Result<usize, Stop> {
    wire.bytes.resize(ROOM, 0);
    wire.bytes.copy_within(wire.start..wire.end, 0);
    wire.end -= wire.start;
    wire.start = 0;
    let n = link.read(&mut wire.bytes[wire.end..]).map_err(|_| Stop::Fault)?;
    wire.end += n;
    Ok(n)
}

fn read_request<L: Link>(wire: &mut Wire, link: &mut L) -> Result<Request, Stop> {
    let head = loop {
        if wire.start < wire.end {
            if let Some(head) = read_head(&wire.bytes[wire.start..wire.end])? {
                break head;
            }
        }
        if wire.end - wire.start == ROOM {
            return Err(Stop::Bad(431));
        }
        if fill(wire, link)? == 0 {
            return Err(if wire.start == wire.end { Stop::Closed } else { Stop::Bad(400) });
        }
    };
    wire.start += head.size;
    let mut body = Vec::new();
    while body.len() < head.length {
        if wire.start == wire.end && fill(wire, link)? == 0 {
            return Err(Stop::Bad(400));
        }
        let n = (wire.end - wire.start).min(head.length - body.len());
        body.extend_from_slice(&wire.bytes[wire.start..wire.start + n]);
        wire.start += n;
    }
    Ok(Request { method: head.method, target: head.target, last: head.last, body })
}

enum Ask {
    Index,
    Flat(String),
    Stop,
}

// An id in lower case: parts of letters, digits and `_`, with single `.` or `-` between.
fn is_id(text: &str) -> bool {
    !text.is_empty()
        && text.len() <= 100
        && text.split(['.', '-']).all(|part| {
            !part.is_empty() && part.bytes().all(|byte| byte.is_ascii_lowercase() || byte.is_ascii_digit() || byte == b'_')
        })
}

fn route(method: &str, target: &str) -> Result<Ask, (u16, Option<&'static str>)> {
    let path = target.split_once('?').map_or(target, |(path, _)| path);
    let (ask, verb) = if let Some(rest) = path.strip_prefix("/v3/flat/") {
        match rest.split_once('/') {
            Some((id, "index.json")) if is_id(id) => (Ask::Flat(["d/", rest].concat()), "GET"),
            _ => return Err((404, None)),
        }
    } else {
        match path {
            "/v3/index.json" => (Ask::Index, "GET"),
            "/admin/stop" => (Ask::Stop, "POST"),
            _ => return Err((404, None)),
        }
    };
    if method == verb { Ok(ask) } else { Err((405, Some(verb))) }
}

struct Reply {
    status: u16,
    allow: Option<&'static str>,
    body: Vec<u8>,
    stop: bool,
}

trait Service {
    fn answer(&mut self, request: &Request, ask: &Ask) -> Reply;
}

struct Versions;

impl Service for Versions {
    fn answer(&mut self, _request: &Request, ask: &Ask) -> Reply {
        let stop = matches!(ask, Ask::Stop);
        if let Ask::Flat(name) = ask {
            std::hint::black_box(name);
        }
        Reply { status: 200, allow: None, body: BODY.to_vec(), stop }
    }
}

fn phrase(status: u16) -> &'static str {
    match status {
        200 => "OK",
        400 => "Bad Request",
        404 => "Not Found",
        405 => "Method Not Allowed",
        413 => "Payload Too Large",
        415 => "Unsupported Media Type",
        431 => "Request Header Fields Too Large",
        501 => "Not Implemented",
        _ => "Internal Server Error",
    }
}

fn response(reply: &Reply, last: bool) -> Vec<u8> {
    let mut out = Vec::with_capacity(256 + reply.body.len());
    let _ = write!(out, "HTTP/1.1 {} {}\r\n", reply.status, phrase(reply.status));
    if last {
        out.extend_from_slice(b"Connection: close\r\n");
    }
    if let Some(verb) = reply.allow {
        let _ = write!(out, "Allow: {verb}\r\n");
    }
    let _ = write!(out, "Content-Length: {}\r\n", reply.body.len());
    if !reply.body.is_empty() {
        let _ = write!(out, "Content-Type: {}\r\n", "application/json");
    }
    out.extend_from_slice(b"\r\n");
    out.extend_from_slice(&reply.body);
    out
}

fn serve<S: Service, L: Link>(service: &mut S, link: &mut L) -> String {
    let mut wire = Wire { bytes: Vec::new(), start: 0, end: 0 };
    loop {
        let request = match read_request(&mut wire, link) {
            Ok(request) => request,
            Err(Stop::Closed) => return "ByClient".to_owned(),
            Err(Stop::Fault) => return "ReadFault".to_owned(),
            Err(Stop::Bad(status)) => {
                let reply = Reply { status, allow: None, body: Vec::new(), stop: false };
                let sent = link.write(&response(&reply, true));
                return if sent.is_ok() { format!("AfterError({status})") } else { "WriteFault".to_owned() };
            }
        };
        let reply = match route(&request.method, &request.target) {
            Ok(ask) => service.answer(&request, &ask),
            Err((status, allow)) => Reply { status, allow, body: Vec::new(), stop: false },
        };
        let last = request.last || reply.stop;
        if link.write(&response(&reply, last)).is_err() {
            return "WriteFault".to_owned();
        }
        if last {
            return if reply.stop { "Stopped" } else { "ByClient" }.to_owned();
        }
    }
}

fn main() {
    for line in io::stdin().lock().lines() {
        let left = line.ok().and_then(|line| line.parse().ok()).unwrap_or(0);
        let mut link = Asking { left, written: 0 };
        let end = serve(&mut Versions, &mut link);
        println!("{end} {}", link.written);
    }
}
