//! The independent reference program: everything that document 01 asks for, by the plainest method,
//! sharing nothing with the code under test.

pub mod answer;
pub mod answer_frames;
pub mod answer_lines;
pub mod answer_plans;
pub mod answer_sheets;
pub mod cases_dates;
pub mod cases_frames;
pub mod cases_lines;
pub mod cases_plans;
pub mod cases_sheets;
pub mod cases_zones;
pub mod command_line;
pub mod compare;
pub mod compile;
pub mod dates;
pub mod driver;
pub mod dump;
pub mod entries;
pub mod generate;
pub mod hex;
pub mod local;
pub mod meaning;
pub mod meanings;
pub mod minutes;
pub mod plan;
pub mod program;
pub mod random;
pub mod searches;
pub mod sheet;
pub mod shown;
pub mod tables;
pub mod zone;
