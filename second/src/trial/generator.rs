//! Lines by seed.  The generator keeps a clock of its own and answers its own
//! lines as it goes, so that later lines can be aimed at what the earlier ones
//! made of it.

use super::burst_lines::burst_lines;
use super::calls::Call;
use super::comparison_lines::compare_line;
use super::delay_lines::delay_line;
use super::export_lines::export_lines;
use super::history_lines as history;
use super::import_lines::import_lines;
use super::link_lines::{link_lines, link_settings_line, Wires};
use super::malformed::{longest, malformed, silent};
use super::origin_lines::origin_line;
use super::question_lines::{all_line, best_line};
use super::random::Random;
use super::ranking_lines::{decide_line, merge_line, parent_line, rank_line};
use super::reading_lines as reading;
use super::record_lines::{record_lines, recording_lines, trace_line};
use super::replay_lines::replay_lines;
use super::scene_lines::{later_line, scene_lines};
use super::settings_lines as settings;
use super::writing_lines::{signal_line, suffix_tlv_line, write_line};
use crate::engine::clock::Clock;
use crate::protocol::answer::answer;
use crate::protocol::tokens::Tokens;
use std::collections::VecDeque;

/// A line, without its newline, and what it answers, if anything.
pub struct Vector {
    pub line: Vec<u8>,
    pub answer: Option<String>,
}

/// The lines of some calls under a seed.
pub struct Generator {
    random: Random,
    calls: Vec<Call>,
    clock: Clock,
    wires: Wires,
    /// Lines that are to come next.
    coming: VecDeque<Vec<u8>>,
}

impl Generator {
    /// The generator of a seed for these calls.
    pub fn new(calls: Vec<Call>, seed: u64) -> Generator {
        Generator {
            random: Random::new(seed),
            calls,
            clock: Clock::fresh(),
            wires: Wires::default(),
            coming: VecDeque::new(),
        }
    }

    /// The next line and its answer.
    pub fn next_vector(&mut self) -> Vector {
        let line = self.next_line();
        let answer = answer(&mut self.clock, &line);
        let vector = Vector { line, answer };
        if self.calls.contains(&Call::Records) {
            if let Some(port) = refused_to_take(&vector) {
                let records = history::records_line(&mut self.random, port);
                self.coming.push_front(records);
            }
        }
        vector
    }

    /// The next line: one that is to come, or mostly a call that was asked for,
    /// else a setting, a line that is one step from a call, or one that answers
    /// nothing.
    fn next_line(&mut self) -> Vec<u8> {
        if let Some(line) = self.coming.pop_front() {
            return line;
        }
        match self.random.below(1000) {
            0..=29 => self.setting(),
            30..=69 => {
                let line = self.asked_for();
                malformed(&mut self.random, line)
            }
            70..=74 => silent(&mut self.random),
            75 if self.random.chance(1, 6) => longest(&mut self.random),
            _ => self.asked_for(),
        }
    }

    /// A line of a setting without a port, whatever was asked for.
    fn setting(&mut self) -> Vec<u8> {
        let call = match self.random.below(64) {
            0 => Call::Fresh,
            1..=12 => Call::Clock,
            13..=24 => Call::Domain,
            25..=45 => Call::Magic,
            _ => Call::Own,
        };
        self.line_of(call)
    }

    /// A line of one of the calls that were asked for, or of one that it needs
    /// beside it.
    fn asked_for(&mut self) -> Vec<u8> {
        let call = self.random.pick(&self.calls);
        let share = self.random.below(40);
        if matches!(call, Call::Best | Call::All) && share < 8 {
            return self.line_of_scene(share == 0);
        }
        if call == Call::Burst && share == 0 {
            return self.line_of_scene(true);
        }
        let beside = match call {
            Call::Link if share < 4 => Call::LinkSettings,
            Call::Take if share < 1 => Call::Interval,
            Call::Burst if share < 3 => Call::Interval,
            Call::Burst if share < 8 => Call::Take,
            Call::Candidates | Call::Records if share < 20 => Call::Take,
            Call::Candidates | Call::Records if share < 21 => Call::Interval,
            Call::Best | Call::All if share < 9 => Call::Interval,
            Call::Best | Call::All if share < 10 => Call::Own,
            Call::Parent if share < 2 => Call::Own,
            Call::Parent if share < 3 => Call::Clock,
            Call::Signal | Call::SuffixTlv if share < 3 => Call::Magic,
            Call::Record if share < 3 => Call::Trace,
            Call::Record if share < 4 => Call::Recording,
            Call::Trace | Call::Recording if share < 28 => Call::Record,
            Call::Interval if share < 30 && self.calls.contains(&Call::Take) => Call::Take,
            _ => call,
        };
        self.line_of(beside)
    }

    /// The first line of a new scene, or one that carries on what there is.
    fn line_of_scene(&mut self, is_new: bool) -> Vec<u8> {
        if !is_new {
            if let Some(line) = later_line(&mut self.random, &self.clock) {
                return line;
            }
        }
        let lines = scene_lines(&mut self.random, &self.clock, &self.calls);
        self.first_of(lines)
    }

    /// The first of some lines; the others are to come.
    fn first_of(&mut self, mut lines: Vec<Vec<u8>>) -> Vec<u8> {
        self.coming.extend(lines.drain(1..));
        lines.remove(0)
    }

    /// A line of a call.
    fn line_of(&mut self, call: Call) -> Vec<u8> {
        let random = &mut self.random;
        let magic = self.clock.magic;
        let own = &self.clock.own_set();
        match call {
            Call::Fresh => settings::fresh_line(),
            Call::Clock => settings::clock_line(random),
            Call::Domain => settings::domain_line(random),
            Call::Magic => settings::magic_line(random),
            Call::Own => settings::own_line(random),
            Call::Read => reading::read_line(random, magic),
            Call::Lookup => reading::lookup_line(random, magic),
            Call::Suffix => reading::suffix_line(random, magic),
            Call::LinkMessage => reading::link_message_line(random, magic),
            Call::Walk => reading::walk_line(random, magic),
            Call::Write => write_line(random, magic),
            Call::SuffixTlv => suffix_tlv_line(random),
            Call::Signal => signal_line(random),
            Call::Origin => origin_line(random, magic),
            Call::Compare => compare_line(random),
            Call::Rank => rank_line(random, own),
            Call::Merge => merge_line(random, own),
            Call::Decide => decide_line(random, own),
            Call::Parent => parent_line(random, own),
            Call::Delay => delay_line(random),
            Call::LinkSettings => link_settings_line(random),
            Call::Link => {
                let lines = link_lines(random, &self.clock, &mut self.wires);
                self.first_of(lines)
            }
            Call::Interval => history::any_interval_line(random),
            Call::Take => {
                let lines = history::take_lines(random, &self.clock);
                self.first_of(lines)
            }
            Call::Burst => {
                let lines = burst_lines(random, &self.clock);
                self.first_of(lines)
            }
            Call::Candidates => history::candidates_line(random, &self.clock),
            Call::Best => best_line(random, &self.clock),
            Call::All => all_line(random, &self.clock),
            Call::Records => history::any_records_line(random),
            Call::Record => {
                let lines = record_lines(random, &self.clock);
                self.first_of(lines)
            }
            Call::Trace => trace_line(),
            Call::Recording => {
                let lines = recording_lines(random, &self.clock);
                self.first_of(lines)
            }
            Call::Replay => {
                let lines = replay_lines(random, &self.clock);
                self.first_of(lines)
            }
            Call::Import => {
                let lines = import_lines(random, &self.clock);
                self.first_of(lines)
            }
            Call::Export => {
                let lines = export_lines(random, &self.clock);
                self.first_of(lines)
            }
        }
    }
}

/// The port of a line of `take` that was refused.
fn refused_to_take(vector: &Vector) -> Option<u8> {
    let mut tokens = Tokens::of(&vector.line);
    let refused = vector.answer.as_ref()?.starts_with("refused");
    (refused && tokens.word()? == b"take").then(|| tokens.number())?
}

#[cfg(test)]
mod tests {
    use super::*;
    use crate::engine::candidate::PORTS;
    use crate::engine::senders::Record;
    use crate::trial::calls::{calls_named, CALLS};
    use crate::trial::kinds::answers_in_burst;

    /// The answers to so many lines of a call among those of some calls.
    fn answers_of(name: &str, calls: &str, count: usize) -> Vec<String> {
        let mut generator = Generator::new(calls_named(calls).unwrap(), 7);
        let begin = format!("{name} ");
        (0..count)
            .map(|_| generator.next_vector())
            .filter(|vector| vector.line.starts_with(begin.as_bytes()))
            .filter_map(|vector| vector.answer)
            .collect()
    }

    /// Asserts that at least so many answers hold each of some words.
    fn assert_often(answers: &[String], least: usize, words: &[&str]) {
        for word in words {
            let holding = answers.iter().filter(|answer| answer.contains(word));
            assert!(holding.count() >= least, "{word}");
        }
    }

    #[test]
    fn every_decision_and_refusal_comes_often() {
        let all = answers_of("all", "best,all", 6000);
        let decisions = ["M1", "M2", "M3", "S1", "S2", "P1", "P2"];
        assert_often(&all, 50, &decisions);
        assert_often(&all, 50, &["refused 11"]);
        let best = answers_of("best", "best,all", 6000);
        assert_often(&best, 30, &["found", "absent", "refused 8", "refused 11"]);
        let parent = answers_of("parent", "parent", 2000);
        assert_often(&parent, 100, &["found", "none", "refused 15"]);
        let signal = answers_of("signal", "signal", 2000);
        let kinds = ["ok 56", "ok 62", "ok 72", "refused 16", "refused 18"];
        assert_often(&signal, 100, &kinds);
        let suffix = answers_of("suffixtlv", "suffixtlv", 2000);
        assert_often(&suffix, 50, &["0120000000", "0120000007", "012000000f"]);
    }

    #[test]
    fn bad_tails_come_often_and_at_every_place() {
        for call in ["read", "lookup", "suffix", "linkmessage", "walk", "origin"] {
            let answers = answers_of(call, call, 6000);
            for number in [6, 7] {
                for at in [44, 54, 64] {
                    assert_often(&answers, 4, &[&format!("refused {number} {at}")]);
                }
                assert_often(&answers, 600, &[&format!("refused {number} ")]);
            }
        }
        let take = answers_of("take", "take", 6000);
        assert_often(&take, 100, &["refused 6 64", "refused 7 64"]);
        let walk = answers_of("walk", "walk", 6000);
        assert_often(&walk, 100, &["ok 0", "ok 1 44 ", "ok 2 ", "ok 6 "]);
    }

    /// Every slot of a clock.
    fn slots(clock: &Clock) -> Vec<Option<Record>> {
        PORTS
            .flat_map(|port| clock.senders(port).unwrap().slots)
            .collect()
    }

    /// The steps of a record before and after an Announce of its sender, where
    /// that shifted the receipts.
    fn steps_moved(before: &Option<Record>, after: &Option<Record>) -> Option<(u16, u16)> {
        let (before, after) = (before.as_ref()?, after.as_ref()?);
        let is_shifted = before.announced.sender == after.announced.sender
            && before.announced.sequence != after.announced.sequence
            && after.older == Some(before.newest);
        is_shifted.then_some((
            before.announced.steps_removed,
            after.announced.steps_removed,
        ))
    }

    /// The steps before and after each Announce, among so many lines of some
    /// calls, that shifted its sender's receipts.
    fn moves_of_steps(calls: &str, lines: usize) -> Vec<(u16, u16)> {
        let mut generator = Generator::new(calls_named(calls).unwrap(), 7);
        let mut moves = Vec::new();
        for _ in 0..lines {
            let before = slots(&generator.clock);
            generator.next_vector();
            let after = slots(&generator.clock);
            let moved = before.iter().zip(&after);
            moves.extend(moved.filter_map(|(before, after)| steps_moved(before, after)));
        }
        moves
    }

    #[test]
    fn steps_on_both_sides_of_255_come_often_and_change() {
        for calls in ["take,candidates,records", "best,all", "burst"] {
            let moves = moves_of_steps(calls, 20_000);
            for distant in [255, 256, 65_535] {
                let gone = moves
                    .iter()
                    .filter(|(from, to)| *from < 255 && *to == distant);
                let back = moves
                    .iter()
                    .filter(|(from, to)| *from == distant && *to < 255);
                let (gone, back) = (gone.count(), back.count());
                assert!(gone >= 25 && back >= 25, "{calls} {distant} {gone} {back}");
            }
            for edge in [(254, 255), (255, 254), (253, 255), (255, 253)] {
                let crossed = moves.iter().filter(|steps| **steps == edge).count();
                assert!(crossed >= 5, "{calls} {edge:?} {crossed}");
            }
        }
    }

    /// The messages of a line of `burst`, each as a line of `take`.
    fn lines_in_burst(line: &[u8]) -> Vec<Vec<u8>> {
        let words: Vec<&[u8]> = line.split(|&c| c == b' ').collect();
        let messages = words[2..].chunks(3);
        messages
            .map(|one| [&b"take "[..], &one.join(&b' ')].concat())
            .collect()
    }

    #[test]
    fn a_burst_is_its_messages_one_after_another() {
        let mut generator = Generator::new(calls_named("burst").unwrap(), 7);
        let mut taken = 0;
        for _ in 0..3000 {
            let mut clock = generator.clock.clone();
            let vector = generator.next_vector();
            let answers = answers_in_burst(vector.answer.as_deref().unwrap_or_default());
            if !vector.line.starts_with(b"burst ") || answers.is_empty() {
                continue;
            }
            taken += 1;
            let lines = lines_in_burst(&vector.line);
            let singly = lines.iter().filter_map(|line| answer(&mut clock, line));
            assert_eq!(answers, singly.collect::<Vec<_>>());
            for port in PORTS {
                let senders = |clock: &Clock| *clock.senders(port).unwrap();
                assert_eq!(senders(&clock), senders(&generator.clock));
            }
        }
        assert!(taken > 800);
    }

    /// What the lines of `burst` among so many tell as their count, and their
    /// answers.
    fn bursts(lines: usize) -> Vec<(u64, String)> {
        let mut generator = Generator::new(calls_named("burst").unwrap(), 7);
        (0..lines)
            .map(|_| generator.next_vector())
            .filter_map(|vector| Some((count_of_list("burst", 0, &vector.line)?, vector.answer?)))
            .collect()
    }

    #[test]
    fn bursts_of_every_size_with_every_refusal_come_often() {
        let bursts = bursts(12_000);
        for (count, begin, least) in [
            (0, "ok 0", 50),
            (1, "ok 1 ", 100),
            (7, "ok 7 ", 100),
            (17, "ok 17 ", 20),
            (287, "ok 287 ", 10),
            (288, "ok 288 ", 10),
            (289, "refused 17", 10),
            (400, "refused 17", 1),
            (401, "bad line", 1),
        ] {
            let of_size = bursts.iter().filter(|(told, _)| *told == count);
            let answered = of_size.filter(|(_, answer)| answer.starts_with(begin));
            assert!(answered.count() >= least, "{count} {begin}");
        }
        let messages: Vec<String> = bursts
            .iter()
            .flat_map(|(_, answer)| answers_in_burst(answer))
            .map(|answer| answer + " ")
            .collect();
        assert_often(&messages, 5000, &["ok "]);
        for number in 1..=13 {
            assert_often(&messages, 100, &[&format!("refused {number} ")]);
        }
        assert_often(&messages, 100, &["refused 6 64 ", "refused 7 64 "]);
    }

    #[test]
    fn every_refusal_and_edge_of_a_recording_comes_often() {
        let calls = "record,trace,recording";
        let record = answers_of("record", calls, 6000);
        let refusals = ["refused 8", "refused 11", "refused 17", "refused 19"];
        assert_often(&record, 100, &refusals);
        assert_often(&record, 300, &["ok -", "ok "]);
        let last_number = |answer: &&String| answer.len() > 1000 && answer[7..15] == *"fffffffe";
        assert!(record.iter().filter(last_number).count() > 20);
        // Blocks that are filled to the last octet, and to one before it.
        let closed = || record.iter().filter(|answer| answer.len() > 1000);
        assert!(closed().filter(|block| !block.ends_with("00")).count() > 100);
        let mut generator = Generator::new(calls_named(calls).unwrap(), 7);
        let blocks: Vec<String> = (0..6000)
            .map(|_| generator.next_vector())
            .filter(|vector| vector.line == b"trace")
            .filter_map(|vector| vector.answer)
            .collect();
        assert_often(&blocks, 10, &["ok -", "ok 0001", "ok ffff"]);
    }

    #[test]
    fn replays_of_every_kind_come_often() {
        let replay = answers_of("replay", "replay", 12_000);
        assert_often(&replay, 1000, &["ok", "refused 20"]);
        assert_often(&replay, 50, &["M1", "M2", "M3", "S1", "S2", "P1"]);
        assert_often(&replay, 5, &["P2", "ok 0 "]);
    }

    #[test]
    fn captures_of_every_kind_come_often() {
        let import = answers_of("import", "import", 12_000);
        let refusals = ["refused 8 ", "refused 11 ", "refused 16 ", "refused 19 "];
        assert_often(&import, 300, &refusals);
        assert_often(&import, 1000, &["refused 21 ", "ok 512 "]);
        assert_often(&import, 100, &["ok 0 -", "ok 0 a5", "ok 1024 ", "ok 2048 "]);
        let export = answers_of("export", "export", 12_000);
        assert_often(&export, 500, &["refused 16 ", "refused 20 ", "refused 22 "]);
        assert_often(&export, 50, &["ok 24 ", "ok 54 "]);
        assert_often(&export, 1000, &["ok ", "a5a5"]);
    }

    #[test]
    fn every_call_is_answered_and_malformed() {
        for (name, _) in CALLS {
            let answers = answers_of(name, &format!("{name},{name}"), 2000);
            let bad = answers.iter().filter(|answer| *answer == "bad line");
            let bad = bad.count();
            // Of these, only malformed lines have anything behind the name.
            let is_bare = name == "fresh" || name == "trace";
            assert!(bad > 0 && (is_bare || bad < answers.len() / 2), "{name}");
        }
    }

    /// The answers to the lines of a call among so many whose list, the one at
    /// this place, has a count.
    fn answers_to_count(name: &str, list: usize, count: u64, lines: usize) -> Vec<String> {
        let mut generator = Generator::new(calls_named(name).unwrap(), 7);
        (0..lines)
            .map(|_| generator.next_vector())
            .filter(|vector| count_of_list(name, list, &vector.line) == Some(count))
            .filter_map(|vector| vector.answer)
            .collect()
    }

    /// The count of a line's list, the one at this place.
    fn count_of_list(name: &str, list: usize, line: &[u8]) -> Option<u64> {
        let mut tokens = Tokens::of(line);
        if tokens.word()? != name.as_bytes() {
            return None;
        }
        if name == "decide" {
            tokens.word()?;
        }
        for _ in 0..list {
            for _ in 0..11 * tokens.number::<u64>()? {
                tokens.word()?;
            }
        }
        tokens.number()
    }

    #[test]
    fn the_greatest_count_and_one_more_come_in_every_list() {
        let refused = [
            ("rank", 0, "refused 17"),
            ("merge", 0, "refused 15"),
            ("merge", 1, "refused 15"),
            ("decide", 0, "refused 15"),
            ("parent", 0, "refused 15"),
        ];
        for (name, list, answer) in refused {
            let greatest = answers_to_count(name, list, 400, 20_000);
            assert!(greatest.iter().any(|a| a == answer), "{name} {list}");
            let past = answers_to_count(name, list, 401, 20_000);
            assert!(!past.is_empty(), "{name} {list}");
            assert!(past.iter().all(|a| a == "bad line"), "{name} {list}");
        }
    }

    #[test]
    fn the_same_seed_gives_the_same_lines() {
        let lines = |seed| {
            let mut generator = Generator::new(calls_named("all").unwrap(), seed);
            let lines: Vec<_> = (0..2000).map(|_| generator.next_vector().line).collect();
            lines
        };
        assert_eq!(lines(7), lines(7));
        assert_ne!(lines(7), lines(8));
    }
}
