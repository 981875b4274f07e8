//! Compares read and write with the model, and with the table "Registers" of document 01.

mod between_clocks;
mod no_setting;
mod states;
mod table;
