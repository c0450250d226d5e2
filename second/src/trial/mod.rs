//! The trial of one implementation against the other: lines made by seed and
//! weighted to the edges, the comparison of two programs' answers, a table of
//! how often each answer came, and histories for a program to replay.

pub mod bad_tails;
pub mod burst_lines;
pub mod call_line;
pub mod calls;
pub mod candidates;
pub mod capture_faults;
pub mod captures;
pub mod compare;
pub mod comparison_lines;
pub mod damage;
pub mod delay_lines;
pub mod export_lines;
pub mod generator;
pub mod histories;
pub mod history_lines;
pub mod import_lines;
pub mod kinds;
pub mod link_lines;
pub mod malformed;
pub mod messages;
pub mod origin_lines;
pub mod question_lines;
pub mod random;
pub mod ranking_lines;
pub mod reading_lines;
pub mod record_lines;
pub mod replay_lines;
pub mod scene_lines;
pub mod settings_lines;
pub mod steps;
pub mod story;
pub mod tails;
pub mod traces;
pub mod values;
pub mod writing_lines;
