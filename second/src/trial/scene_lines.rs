//! Scenes for `best`, `all` and `burst`: a clock with its own set, and senders
//! on many ports whose Announces bring every decision about.  A scene answers
//! its own lines as it goes, so that each can be aimed at what the ones before
//! it made of the clock.

use super::calls::Call;
use super::candidates::{
    all_ports, candidate, change_identity, change_quality, change_steps, port, quality,
};
use super::history_lines::{heard, interval_line, line_of_burst, line_of_take, senders_of};
use super::messages::{self, Draft};
use super::question_lines::{all_line, best_line, heard_ports, latest_time};
use super::random::Random;
use super::settings_lines as settings;
use super::steps::{any_steps, scene_steps, stray_steps};
use super::story::Story;
use super::values;
use crate::engine::candidate::{Candidate, Quality};
use crate::engine::clock::Clock;
use crate::engine::message::{Announce, Body, Header, PortIdentity};
use crate::engine::received::Received;
use crate::engine::senders::candidate_of;

/// A time so late that the next scene begins afresh.
const LATE: u64 = 1 << 62;
/// Where the senders' clocks begin; our own often stands among them.
const SENDER_CLOCKS: u64 = 0x001b_19ff_fe00_0000;
/// How many there are.
const SENDER_CLOCK_COUNT: u64 = 18;

/// A scene in the making: its story, and whether each round of Announces is one
/// burst.
struct Scene {
    story: Story,
    in_bursts: bool,
}

/// The lines of a scene that ends with some of the questions asked for.
pub fn scene_lines(random: &mut Random, clock: &Clock, asked: &[Call]) -> Vec<Vec<u8>> {
    let mut scene = Scene {
        story: Story::beginning(clock),
        in_bursts: asked.contains(&Call::Burst) && random.chance(7, 8),
    };
    let base = set_scene(random, &mut scene.story);
    let mut speakers = speakers(random, &scene.story.clock, &base);
    if random.chance(1, 8) {
        let mirror = mirror(random, &base);
        speakers.push(mirror);
        scene.let_speak(random, &speakers);
        scene
            .story
            .say(settings::line_of_clock(random, mirror.sender.clock));
    } else {
        scene.let_speak(random, &speakers);
        scene.turn(random, &speakers);
    }
    scene.ask(random, asked);
    scene.story.lines
}

/// The settings before anybody speaks, and what most senders will announce.
pub fn set_scene(random: &mut Random, story: &mut Story) -> Candidate {
    if latest_time(&story.clock) > LATE || random.chance(1, 2) {
        story.say(settings::fresh_line());
    }
    let any = values::clock(random);
    let among = SENDER_CLOCKS + random.below(SENDER_CLOCK_COUNT);
    let identity = random.pick(&[any, among, SENDER_CLOCKS + SENDER_CLOCK_COUNT / 2]);
    story.say(settings::line_of_clock(random, identity));
    if random.chance(1, 3) {
        story.say(settings::domain_line(random));
    }
    if random.chance(1, 3) {
        story.say(settings::magic_line(random));
    }
    for _ in 0..random.below(4) {
        let port = port(random);
        story.say(interval_line(random, port));
    }
    let base = base(random);
    let own = own_quality(random, &base.quality);
    story.say(settings::line_of_own(random, &own));
    base
}

/// An Announce more from a sender that has a record, soon after all that was
/// taken, mostly with the same data; none where no port has a record.
pub fn later_line(random: &mut Random, clock: &Clock) -> Option<Vec<u8>> {
    let ports = heard_ports(clock);
    if ports.is_empty() {
        return None;
    }
    let port = random.pick(&ports);
    let records: Vec<_> = senders_of(clock, port).held().collect();
    let (_, record) = random.pick(&records);
    let mut speaker = candidate_of(&record.announced, port);
    match random.below(6) {
        0 => speaker.steps_removed = change_steps(random, speaker.steps_removed),
        1 => speaker.steps_removed = any_steps(random),
        2 => change_quality(random, &mut speaker.quality),
        _ => {}
    }
    let time = later(random, latest_time(clock), 20_000_000);
    let received = announced(random, clock, &speaker, time);
    Some(line_of_take(random, &received))
}

impl Scene {
    /// Lets the senders speak in two or three rounds; now and then one is not
    /// heard.  In some scenes they stray: an Announce may tell other steps than
    /// the sender's others.
    fn let_speak(&mut self, random: &mut Random, speakers: &[Candidate]) {
        let pace = random.pick(&[0, 1, 1_000, 1_000_000, 10_000_000, 40_000_000]);
        let mut time = start_time(random, &self.story.clock);
        let rounds = random.pick(&[2, 2, 2, 3]);
        let they_stray = random.chance(1, 3);
        for _ in 0..rounds {
            let mut burst = Vec::new();
            for speaker in speakers {
                if random.chance(1, 10) {
                    continue;
                }
                time = later(random, time, pace);
                let mut speaker = *speaker;
                if they_stray && random.chance(1, 4) {
                    speaker.steps_removed = stray_steps(random);
                }
                let received = announced(random, &self.story.clock, &speaker, time);
                if self.in_bursts {
                    burst.push(heard(&mut self.story.clock, received));
                } else {
                    self.story.say(line_of_take(random, &received));
                }
            }
            if self.in_bursts {
                self.story.lines.push(line_of_burst(random, &burst));
            }
        }
    }

    /// Now and then changes a setting after all have spoken: records stay, also
    /// those of a sender that our own clock now has the name of.
    fn turn(&mut self, random: &mut Random, speakers: &[Candidate]) {
        if speakers.is_empty() || random.chance(2, 3) {
            return;
        }
        let speaker = random.pick(speakers);
        match random.below(6) {
            0 | 1 => self
                .story
                .say(settings::line_of_clock(random, speaker.sender.clock)),
            2 => self
                .story
                .say(settings::line_of_clock(random, speaker.grandmaster)),
            3 => self.story.say(settings::own_line(random)),
            4 => self.story.say(interval_line(random, speaker.port)),
            _ => {
                self.story
                    .say(settings::line_of_clock(random, speaker.sender.clock));
                self.story.say(settings::own_line(random));
            }
        }
    }

    /// Asks a few questions, of both kinds where bursts are asked for.
    fn ask(&mut self, random: &mut Random, asked: &[Call]) {
        let asks = |call| asked.contains(&call) || asked.contains(&Call::Burst);
        for _ in 0..4 {
            if asks(Call::Best) {
                self.story.say(best_line(random, &self.story.clock));
            }
            if asks(Call::All) {
                self.story.say(all_line(random, &self.story.clock));
            }
        }
    }
}

/// What most senders of a scene announce.
pub fn base(random: &mut Random) -> Candidate {
    Candidate {
        quality: quality(random),
        steps_removed: scene_steps(random),
        ..candidate(random)
    }
}

/// Our own quality, near what most senders announce: of a class from 1 to 127,
/// about as good; of another, mostly a little worse.
pub fn own_quality(random: &mut Random, announced: &Quality) -> Quality {
    let equal = announced.priority1;
    let worse = equal.saturating_add(1);
    let better = equal.saturating_sub(1);
    let (priority1, class) = if random.chance(1, 3) {
        let near = announced.class.clamp(1, 127);
        (
            random.pick(&[equal, equal, worse, better]),
            random.pick(&[1, 6, 64, 127, near]),
        )
    } else {
        (
            random.pick(&[worse, worse, worse, worse, equal, better]),
            random.pick(&[0, 128, 248, 248, 255]),
        )
    };
    Quality {
        priority1,
        class,
        ..*announced
    }
}

/// Who speaks on which port: most ports have one to three senders, now and then
/// more than they have slots.
pub fn speakers(random: &mut Random, clock: &Clock, base: &Candidate) -> Vec<Candidate> {
    let mut ports = all_ports(random);
    ports.truncate(random.pick(&[0, 1, 2, 4, 5, 6, 7, 8, 9, 12, 15, 18]));
    let alike = random.chance(2, 3);
    let mut speakers = Vec::new();
    for port in ports {
        let count = match random.below(100) {
            0 => 17,
            1..=9 => 5,
            _ => random.pick(&[1, 1, 1, 2, 2, 3]),
        };
        for _ in 0..count {
            let mut one = speaker(random, base, port);
            if !alike || random.chance(1, 20) {
                vary(random, clock, &mut one);
            }
            speakers.push(one);
        }
    }
    speakers
}

/// A sender on a port that announces the base's grandmaster at about its steps.
fn speaker(random: &mut Random, base: &Candidate, port: u8) -> Candidate {
    let more = random.pick(&[0, 0, 0, 0, 1, 1, 2]);
    Candidate {
        steps_removed: base.steps_removed.wrapping_add(more),
        sender: sender(random, base, port),
        port,
        ..*base
    }
}

/// A sender that announces itself as grandmaster, about one step away, with the
/// number of the port that hears it or one beside it: once our clock has its
/// name, its set comes from ourselves.
fn mirror(random: &mut Random, base: &Candidate) -> Candidate {
    let port = port(random);
    let clock = SENDER_CLOCKS + SENDER_CLOCK_COUNT + random.below(4);
    let priority1 = base.quality.priority1;
    Candidate {
        quality: Quality {
            priority1: random.pick(&[priority1, priority1.saturating_sub(1)]),
            ..base.quality
        },
        grandmaster: clock,
        steps_removed: random.pick(&[0, 1, 1, 1, 1, 2]),
        sender: PortIdentity {
            clock,
            port: u16::from(port) + random.pick(&[0, 0, 0, 1]),
        },
        port,
        ..*base
    }
}

/// Lets half of the senders announce something else: another quality, another
/// grandmaster, our own clock as grandmaster, or other steps.
fn vary(random: &mut Random, clock: &Clock, speaker: &mut Candidate) {
    match random.below(12) {
        0 => change_quality(random, &mut speaker.quality),
        1 => speaker.quality = quality(random),
        2 => speaker.grandmaster = values::clock(random),
        3 => {
            speaker.grandmaster = values::clock(random);
            speaker.quality = quality(random);
        }
        4 => {
            speaker.grandmaster = clock.identity;
            speaker.quality = clock.own_quality;
            speaker.steps_removed = random.pick(&[0, 1, 1, 2]);
        }
        5 => speaker.steps_removed = change_steps(random, speaker.steps_removed),
        _ => {}
    }
}

/// A sender's identity: one of a few clocks, the same on several ports, or one
/// with the port's own number.
fn sender(random: &mut Random, base: &Candidate, port: u8) -> PortIdentity {
    let mut sender = PortIdentity {
        clock: SENDER_CLOCKS + random.below(SENDER_CLOCK_COUNT),
        port: 1,
    };
    match random.below(8) {
        0 => sender = base.sender,
        1 | 2 => sender.port = u16::from(port),
        3 => change_identity(random, &mut sender),
        _ => {}
    }
    sender
}

/// The time at which a scene begins: after all that was taken, or anywhere on a
/// clock that took nothing.
pub fn start_time(random: &mut Random, clock: &Clock) -> u64 {
    let latest = latest_time(clock);
    if latest > 0 {
        return later(random, latest, 4_000_000_000);
    }
    match random.below(8) {
        0 | 1 => 0,
        2 => random.below(1 << 48),
        3 => random.pick(&[1 << 32, i64::MAX as u64, 1 << 63, u64::MAX - 3_000_000_000]),
        _ => random.below(10_000_000_000),
    }
}

/// A time at most so much later.
pub fn later(random: &mut Random, time: u64, most: u64) -> u64 {
    time.saturating_add(random.below(most + 1))
}

/// A sender's next Announce as its port receives it.
pub fn announced(random: &mut Random, clock: &Clock, speaker: &Candidate, time: u64) -> Received {
    let known = senders_of(clock, speaker.port)
        .held()
        .find(|(_, record)| record.announced.sender == speaker.sender);
    let header = Header {
        domain: clock.domain,
        source: speaker.sender,
        sequence: match known {
            Some((_, record)) => record.announced.sequence.wrapping_add(1),
            None => values::u16(random),
        },
        ..messages::header(random)
    };
    let fields = Announce {
        priority1: speaker.quality.priority1,
        class: speaker.quality.class,
        accuracy: speaker.quality.accuracy,
        variance: speaker.quality.variance,
        priority2: speaker.quality.priority2,
        grandmaster: speaker.grandmaster,
        steps_removed: speaker.steps_removed,
        ..messages::announce(random)
    };
    let body = Body::Announce(values::timestamp(random), fields);
    let mut draft = Draft::sound(random, clock.magic, header, body);
    if random.chance(1, 30) {
        draft.weather(random, clock.magic);
    }
    Received {
        port: speaker.port,
        time,
        octets: draft.octets,
    }
}
