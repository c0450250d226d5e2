//! The answer to a line.  Each call takes its tokens, all of them, before it
//! asks the engine: a line that is no call changes nothing and comes before any
//! refusal.

use super::candidate_tokens::{candidate, data_set, list, quality};
use super::lines::LONGEST_LINE;
use super::link_tokens::{link_event, link_message, link_settings};
use super::message_tokens;
use super::show;
use super::tokens::Tokens;
use crate::engine::candidate::Candidate;
use crate::engine::clock::Clock;
use crate::engine::comparison::compare;
use crate::engine::decision::{decide, parent};
use crate::engine::delay::{measure, Exchange, Stamp};
use crate::engine::message::{Message, MessageType};
use crate::engine::origin::origin;
use crate::engine::ranking::{merge, rank};
use crate::engine::reading::{look_up, read, read_link_message, read_suffix, walk};
use crate::engine::recording::Recording;
use crate::engine::refusal::Refusal;
use crate::engine::replay::replay;
use crate::engine::transfer::{export, import, put_into};
use crate::engine::white_rabbit::suffix_tlv;
use crate::engine::writing::{write, write_signaling};

/// The answer to a line that is no call.
pub const BAD_LINE: &str = "bad line";
/// The answer of a call that has nothing to hand back.
const OK: &str = "ok";
/// The greatest buffer that a call which writes may be given.
const GREATEST_ROOM: usize = 70_000;
/// What the buffer holds before anything is written.
const UNWRITTEN: u8 = 0xa5;

/// What a line, without its newline, answers; none for an empty line and a
/// comment.  The clock becomes what the call makes of it.
pub fn answer(clock: &mut Clock, line: &[u8]) -> Option<String> {
    if line.is_empty() || line[0] == b'#' {
        return None;
    }
    if line.len() > LONGEST_LINE {
        return Some(BAD_LINE.to_string());
    }
    let answer = call(clock, Tokens::of(line));
    Some(answer.unwrap_or_else(|| BAD_LINE.to_string()))
}

/// The answer of the call that the tokens name; none if they are no call.
fn call(clock: &mut Clock, mut tokens: Tokens) -> Option<String> {
    match tokens.word()? {
        b"fresh" => set_fresh(clock, tokens),
        b"clock" => set_identity(clock, tokens),
        b"domain" => set_domain(clock, tokens),
        b"magic" => set_magic(clock, tokens),
        b"own" => set_own(clock, tokens),
        b"read" => answer_read(clock, tokens),
        b"lookup" => answer_lookup(clock, tokens),
        b"suffix" => answer_suffix(clock, tokens),
        b"linkmessage" => answer_link_message(clock, tokens),
        b"walk" => answer_walk(clock, tokens),
        b"write" => answer_write(clock, tokens),
        b"suffixtlv" => answer_suffix_tlv(clock, tokens),
        b"signal" => answer_signal(clock, tokens),
        b"origin" => answer_origin(clock, tokens),
        b"compare" => answer_compare(tokens),
        b"rank" => answer_rank(tokens),
        b"merge" => answer_merge(tokens),
        b"decide" => answer_decide(clock, tokens),
        b"parent" => answer_parent(clock, tokens),
        b"delay" => answer_delay(tokens),
        b"linksettings" => answer_link_settings(clock, tokens),
        b"link" => answer_link(clock, tokens),
        b"interval" => answer_interval(clock, tokens),
        b"take" => answer_take(clock, tokens),
        b"burst" => answer_burst(clock, tokens),
        b"candidates" => answer_candidates(clock, tokens),
        b"best" => answer_best(clock, tokens),
        b"all" => answer_all(clock, tokens),
        b"records" => answer_records(clock, tokens),
        b"record" => answer_record(clock, tokens),
        b"trace" => answer_trace(clock, tokens),
        b"recording" => answer_recording(clock, tokens),
        b"replay" => answer_replay(clock, tokens),
        b"import" => answer_import(tokens),
        b"export" => answer_export(tokens),
        _ => None,
    }
}

/// A refusal's answer: its number, and behind it the place where it has one.
fn refused(refusal: Refusal) -> String {
    let number = refusal.number();
    match refusal.at() {
        Some(at) => format!("refused {number} {at}"),
        None => format!("refused {number}"),
    }
}

/// The answer of a call that finds something, finds nothing or is refused.
fn found<T>(result: Result<Option<T>, Refusal>, show: impl Fn(T) -> String) -> String {
    match result {
        Ok(Some(value)) => format!("found {}", show(value)),
        Ok(None) => "absent".to_string(),
        Err(refusal) => refused(refusal),
    }
}

/// `fresh`
fn set_fresh(clock: &mut Clock, tokens: Tokens) -> Option<String> {
    tokens.end()?;
    *clock = Clock::fresh();
    Some(OK.to_string())
}

/// `clock C`
fn set_identity(clock: &mut Clock, mut tokens: Tokens) -> Option<String> {
    let identity = tokens.number()?;
    tokens.end()?;
    clock.identity = identity;
    Some(OK.to_string())
}

/// `domain D`
fn set_domain(clock: &mut Clock, mut tokens: Tokens) -> Option<String> {
    let domain = tokens.number()?;
    tokens.end()?;
    clock.domain = domain;
    Some(OK.to_string())
}

/// `magic M`
fn set_magic(clock: &mut Clock, mut tokens: Tokens) -> Option<String> {
    let magic = tokens.number()?;
    tokens.end()?;
    clock.magic = magic;
    Some(OK.to_string())
}

/// `own P1 CLASS ACC VAR P2`
fn set_own(clock: &mut Clock, mut tokens: Tokens) -> Option<String> {
    let own_quality = quality(&mut tokens)?;
    tokens.end()?;
    clock.own_quality = own_quality;
    Some(OK.to_string())
}

/// `read OCTETS`
fn answer_read(clock: &Clock, mut tokens: Tokens) -> Option<String> {
    let octets = tokens.octets()?;
    tokens.end()?;
    Some(match read(&octets, clock.magic) {
        Ok(message) => format!("ok {}", show::message(&message)),
        Err(refusal) => refused(refusal),
    })
}

/// `lookup TLVTYPE OCTETS`
fn answer_lookup(clock: &Clock, mut tokens: Tokens) -> Option<String> {
    let tlv_type = tokens.number()?;
    let octets = tokens.octets()?;
    tokens.end()?;
    let result = look_up(&octets, tlv_type, clock.magic);
    Some(found(result, |(at, data)| {
        format!("{at} {}", show::octets(data))
    }))
}

/// `suffix OCTETS`
fn answer_suffix(clock: &Clock, mut tokens: Tokens) -> Option<String> {
    let octets = tokens.octets()?;
    tokens.end()?;
    let result = read_suffix(&octets, clock.magic);
    Some(found(result, |flags| flags.to_string()))
}

/// `linkmessage OCTETS`
fn answer_link_message(clock: &Clock, mut tokens: Tokens) -> Option<String> {
    let octets = tokens.octets()?;
    tokens.end()?;
    let result = read_link_message(&octets, clock.magic);
    Some(found(result, show::link_message))
}

/// `walk OCTETS`
fn answer_walk(clock: &Clock, mut tokens: Tokens) -> Option<String> {
    let octets = tokens.octets()?;
    tokens.end()?;
    Some(match walk(&octets, clock.magic) {
        Ok(tlvs) => format!("ok {}", show::tlvs(&tlvs)),
        Err(refusal) => refused(refusal),
    })
}

/// `write ROOM TYPE TRANSPORT DOMAIN FLAGS CORRECTION CLOCK PORT SEQUENCE
/// INTERVAL BODY TAIL`, without a BODY where the type is not listed.
fn answer_write(clock: &Clock, mut tokens: Tokens) -> Option<String> {
    let room: usize = tokens.number()?;
    let message_type = MessageType::from_number(tokens.number()?);
    let header = message_tokens::header(&mut tokens)?;
    let body = match message_type {
        Some(message_type) => Some(message_tokens::body(&mut tokens, message_type)?),
        None => None,
    };
    let tail = tokens.octets()?;
    tokens.end()?;
    written(room, |buffer| {
        let body = body.ok_or(Refusal::Field)?;
        let tail = &tail;
        write(&Message { header, body, tail }, clock.magic, buffer)
    })
}

/// The answer of a call that writes into a buffer of so many octets, with the
/// whole buffer afterwards; none for a buffer that may not be given.
fn written(room: usize, write: impl FnOnce(&mut [u8]) -> Result<usize, Refusal>) -> Option<String> {
    if room > GREATEST_ROOM {
        return None;
    }
    let mut buffer = vec![UNWRITTEN; room];
    let result = write(&mut buffer);
    let shown = show::octets(&buffer);
    Some(match result {
        Ok(length) => format!("ok {length} {shown}"),
        Err(refusal) => format!("{} {shown}", refused(refusal)),
    })
}

/// `suffixtlv WRFLAGS`
fn answer_suffix_tlv(clock: &Clock, mut tokens: Tokens) -> Option<String> {
    let wr_flags = tokens.number()?;
    tokens.end()?;
    let tlv = suffix_tlv(wr_flags, clock.magic);
    Some(format!("ok {}", show::octets(&tlv)))
}

/// `signal ROOM TRANSPORT DOMAIN FLAGS CORRECTION CLOCK PORT SEQUENCE INTERVAL
/// TARGETCLOCK TARGETPORT NUMBER VALUES`
fn answer_signal(clock: &Clock, mut tokens: Tokens) -> Option<String> {
    let room = tokens.number()?;
    let header = message_tokens::header(&mut tokens)?;
    let target = tokens.identity()?;
    let message = link_message(&mut tokens)?;
    tokens.end()?;
    written(room, |buffer| {
        let message = message.ok_or(Refusal::Field)?;
        write_signaling(header, target, message, clock.magic, buffer)
    })
}

/// `origin SYNC FOLLOW`
fn answer_origin(clock: &Clock, mut tokens: Tokens) -> Option<String> {
    let sync = tokens.octets()?;
    let follow_up = tokens.octets()?;
    tokens.end()?;
    Some(match origin(&sync, &follow_up, clock.magic) {
        Ok(octets) => format!("ok {}", show::octets(octets)),
        Err(refusal) => refused(refusal),
    })
}

/// `compare SET SET`
fn answer_compare(mut tokens: Tokens) -> Option<String> {
    let a = data_set(&mut tokens)?;
    let b = data_set(&mut tokens)?;
    tokens.end()?;
    Some(show::verdict(compare(&a, &b)).to_string())
}

/// The answer of a call that hands back a list or is refused.
fn listed(result: Result<Vec<Candidate>, Refusal>) -> String {
    match result {
        Ok(candidates) => format!("ok {}", show::list(&candidates)),
        Err(refusal) => refused(refusal),
    }
}

/// `rank LIST`
fn answer_rank(mut tokens: Tokens) -> Option<String> {
    let candidates = list(&mut tokens)?;
    tokens.end()?;
    Some(listed(rank(&candidates)))
}

/// `merge LIST LIST`
fn answer_merge(mut tokens: Tokens) -> Option<String> {
    let first = list(&mut tokens)?;
    let second = list(&mut tokens)?;
    tokens.end()?;
    Some(listed(merge(&first, &second)))
}

/// `decide PORT LIST none` or `decide PORT LIST best CANDIDATE`
fn answer_decide(clock: &Clock, mut tokens: Tokens) -> Option<String> {
    let port = tokens.number()?;
    let ranked = list(&mut tokens)?;
    let port_best = match tokens.word()? {
        b"none" => None,
        b"best" => Some(candidate(&mut tokens)?),
        _ => return None,
    };
    tokens.end()?;
    let decision = decide(&clock.own_set(), port, &ranked, port_best.as_ref());
    Some(match decision {
        Ok(decision) => show::decision(decision).to_string(),
        Err(refusal) => refused(refusal),
    })
}

/// `parent LIST`
fn answer_parent(clock: &Clock, mut tokens: Tokens) -> Option<String> {
    let ranked = list(&mut tokens)?;
    tokens.end()?;
    Some(match parent(&clock.own_set(), &ranked) {
        Ok(Some(ebest)) => format!("found {}", show::candidate(&ebest)),
        Ok(None) => "none".to_string(),
        Err(refusal) => refused(refusal),
    })
}

/// `delay T1S T1N SYNC FOLLOW T2S T2N T2F T3S T3N T3F T4S T4N RESP MTX MRX STX
/// SRX A`
fn answer_delay(mut tokens: Tokens) -> Option<String> {
    let exchange = Exchange {
        t1: whole_stamp(&mut tokens)?,
        sync_correction: tokens.number()?,
        follow_up_correction: tokens.number()?,
        t2: fine_stamp(&mut tokens)?,
        t3: fine_stamp(&mut tokens)?,
        t4: whole_stamp(&mut tokens)?,
        delay_resp_correction: tokens.number()?,
        master_tx: tokens.number()?,
        master_rx: tokens.number()?,
        slave_tx: tokens.number()?,
        slave_rx: tokens.number()?,
        asymmetry: tokens.number()?,
    };
    tokens.end()?;
    Some(match measure(&exchange) {
        Ok(measured) => format!(
            "ok {} {} {}",
            measured.delay, measured.offset_seconds, measured.offset_rest
        ),
        Err(refusal) => refused(refusal),
    })
}

/// A stamp of seconds and nanoseconds.
fn whole_stamp(tokens: &mut Tokens) -> Option<Stamp> {
    Some(Stamp {
        seconds: tokens.number()?,
        nanoseconds: tokens.number()?,
        fraction: 0,
    })
}

/// A stamp of seconds, nanoseconds and a fraction.
fn fine_stamp(tokens: &mut Tokens) -> Option<Stamp> {
    Some(Stamp {
        seconds: tokens.number()?,
        nanoseconds: tokens.number()?,
        fraction: tokens.number()?,
    })
}

/// The answer of a call that changes the clock or is refused.
fn done(result: Result<(), Refusal>) -> String {
    match result {
        Ok(()) => OK.to_string(),
        Err(refusal) => refused(refusal),
    }
}

/// `linksettings PORT CONFIG CALIBRATE RETRY PERIOD TX RX`
fn answer_link_settings(clock: &mut Clock, mut tokens: Tokens) -> Option<String> {
    let port = tokens.number()?;
    let settings = link_settings(&mut tokens)?;
    tokens.end()?;
    Some(done(clock.set_link(port, settings)))
}

/// `link PORT EVENT`
fn answer_link(clock: &mut Clock, mut tokens: Tokens) -> Option<String> {
    let port = tokens.number()?;
    let event = link_event(&mut tokens)?;
    tokens.end()?;
    Some(match clock.step_link(port, event) {
        Ok(step) => format!("ok {}", show::link_step(&step)),
        Err(refusal) => refused(refusal),
    })
}

/// `interval PORT K`
fn answer_interval(clock: &mut Clock, mut tokens: Tokens) -> Option<String> {
    let port = tokens.number()?;
    let log_interval = tokens.number()?;
    tokens.end()?;
    Some(done(clock.set_interval(port, log_interval)))
}

/// `take PORT TIME OCTETS`
fn answer_take(clock: &mut Clock, mut tokens: Tokens) -> Option<String> {
    let received = message_tokens::received(&mut tokens)?;
    tokens.end()?;
    Some(done(clock.take(&received)))
}

/// `burst N`, then N times PORT TIME OCTETS
fn answer_burst(clock: &mut Clock, mut tokens: Tokens) -> Option<String> {
    let burst = message_tokens::burst(&mut tokens)?;
    tokens.end()?;
    Some(match clock.take_burst(&burst) {
        Ok(results) => each_done(results),
        Err(refusal) => refused(refusal),
    })
}

/// The answer to a burst that was taken: how many messages it had, then the
/// answer to each.
fn each_done(results: Vec<Result<(), Refusal>>) -> String {
    let mut text = format!("ok {}", results.len());
    for result in results {
        text.push(' ');
        text.push_str(&done(result));
    }
    text
}

/// `candidates PORT TIME`
fn answer_candidates(clock: &Clock, mut tokens: Tokens) -> Option<String> {
    let port = tokens.number()?;
    let time = tokens.number()?;
    tokens.end()?;
    Some(listed(clock.candidates(port, time)))
}

/// `best PORT TIME`
fn answer_best(clock: &Clock, mut tokens: Tokens) -> Option<String> {
    let port = tokens.number()?;
    let time = tokens.number()?;
    tokens.end()?;
    let best = clock.best(port, time);
    Some(found(best, |candidate| show::candidate(&candidate)))
}

/// `all TIME`
fn answer_all(clock: &Clock, mut tokens: Tokens) -> Option<String> {
    let time = tokens.number()?;
    tokens.end()?;
    Some(match clock.decide_all(time) {
        Ok(decided) => format!("ok {}", show::decided(&decided)),
        Err(refusal) => refused(refusal),
    })
}

/// `records PORT`
fn answer_records(clock: &Clock, mut tokens: Tokens) -> Option<String> {
    let port = tokens.number()?;
    tokens.end()?;
    Some(match clock.senders(port) {
        Ok(senders) => format!("ok {}", show::records(senders)),
        Err(refusal) => refused(refusal),
    })
}

/// The answer of a call that hands back a block, where there is one.
fn with_block(block: Option<Vec<u8>>) -> String {
    format!("ok {}", show::octets(&block.unwrap_or_default()))
}

/// `record PORT TIME MESSAGE`
fn answer_record(clock: &mut Clock, mut tokens: Tokens) -> Option<String> {
    let received = message_tokens::received(&mut tokens)?;
    tokens.end()?;
    Some(match clock.recording.record(&received) {
        Ok(closed) => with_block(closed),
        Err(refusal) => refused(refusal),
    })
}

/// `trace`
fn answer_trace(clock: &Clock, tokens: Tokens) -> Option<String> {
    tokens.end()?;
    Some(with_block(clock.recording.open_block()))
}

/// `recording BLOCKNUMBER`
fn answer_recording(clock: &mut Clock, mut tokens: Tokens) -> Option<String> {
    let number = tokens.number()?;
    tokens.end()?;
    clock.recording = Recording::beginning_at(number);
    Some(OK.to_string())
}

/// `replay TRACE`
fn answer_replay(clock: &mut Clock, mut tokens: Tokens) -> Option<String> {
    let trace = tokens.octets()?;
    tokens.end()?;
    Some(match replay(clock, &trace) {
        Ok((time, decided)) => format!("ok {time} {}", show::decisions(&decided.ports)),
        Err(refusal) => refused(refusal),
    })
}

/// `import ROOM PORT FILE`
fn answer_import(mut tokens: Tokens) -> Option<String> {
    let room = tokens.number()?;
    let port = tokens.number()?;
    let file = tokens.octets()?;
    tokens.end()?;
    written(room, |buffer| put_into(buffer, &import(&file, port)?))
}

/// `export ROOM TRACE`
fn answer_export(mut tokens: Tokens) -> Option<String> {
    let room = tokens.number()?;
    let trace = tokens.octets()?;
    tokens.end()?;
    written(room, |buffer| put_into(buffer, &export(&trace)?))
}
